//! Runs a method of an image, under values that are all 0, and answers each request with the code 0.
//!
//!     cargo run -- IMAGE METHOD
use edd_loader::{Image, load};
use edd_machine::Values;
use edd_plain_std::alloc::Global;
use edd_plain_std::vec::Vec as List;
use edd_port::{Session, Turn};
use edd_syntax::answer::Answer;
use edd_syntax::numbers::{ItemNo, VarNo};
use std::process::ExitCode;

/// How many instructions are executed at a time; between two times a program may do something else.
const BUDGET: u32 = 1000;

/// A method that executes more than this is given up.
const MOST: u64 = 1_000_000;

fn main() -> ExitCode {
    let words: Vec<String> = std::env::args().collect();
    let [_, file, method] = words.as_slice() else {
        eprintln!("usage: run_method IMAGE METHOD");
        return ExitCode::from(2);
    };
    match run(file, method) {
        Ok(()) => ExitCode::SUCCESS,
        Err(why) => {
            eprintln!("{why}");
            ExitCode::FAILURE
        }
    }
}

fn run(file: &str, method: &str) -> Result<(), String> {
    let bytes = std::fs::read(file).map_err(|error| format!("{file}: {error}"))?;
    let image = load(Global, &bytes).map_err(|fault| format!("refused {fault}"))?;
    let Some(ItemNo::Method(number)) = image.find(method) else {
        return Err(format!("the image has no method {method}"));
    };
    let zeros = vec![0; usize::from(image.counts().variables)];
    let values = Values::new(Global, &image, &zeros).map_err(|fault| format!("refused {fault}"))?;
    let mut session =
        Session::start(&image, number, values).map_err(|(fault, _)| format!("refused {fault}"))?;
    let turn = finish(&mut session)?;
    println!("{turn:?}");
    show(&image, &session);
    Ok(())
}

/// Goes on to where the method is over.
fn finish(session: &mut Session<'_, '_>) -> Result<Turn, String> {
    while session.taken() < MOST {
        match session.advance(BUDGET) {
            Turn::Asks(request) => {
                println!("{request:?}");
                let answer = Answer::Go {
                    code: 0,
                    sets: List::new(Global),
                };
                session
                    .answer(&answer)
                    .map_err(|fault| format!("refused {fault}"))?;
            }
            Turn::Spent => {}
            over => return Ok(over),
        }
    }
    Err("the method did not end".into())
}

/// Prints the values as the method left them.
fn show(image: &Image<'_>, session: &Session<'_, '_>) {
    for number in 0..image.counts().variables {
        let variable = VarNo(number);
        let name = image.name(ItemNo::Variable(variable)).unwrap_or("?");
        if let Some(value) = session.values().get(variable) {
            println!("{name} {value}");
        }
    }
}
