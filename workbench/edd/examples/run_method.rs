//! Runs a method of an image under values that are all 0, and answers each request with the code 0.
//!
//!     cargo run --example run_method -- IMAGE METHOD

use edd::{Answer, Image, ItemNo, Kind, Session, Turn};
use std::error::Error;
use std::process::ExitCode;

/// How many instructions are executed at a time; between two times a program may do something else.
const BUDGET: u32 = 1000;

/// A method that executes more is given up.
const MOST: u64 = 1_000_000;

fn main() -> ExitCode {
    match run() {
        Ok(()) => ExitCode::SUCCESS,
        Err(error) => {
            eprintln!("{error}");
            ExitCode::FAILURE
        }
    }
}

fn run() -> Result<(), Box<dyn Error>> {
    let words: Vec<String> = std::env::args().skip(1).collect();
    let [file, method] = words.as_slice() else {
        return Err("usage: run_method IMAGE METHOD".into());
    };
    let image = Image::load(std::fs::read(file)?)?;
    let Some(ItemNo::Method(number)) = image.find(method) else {
        return Err(format!("the image has no method {method}").into());
    };
    let mut session = Session::start(&image, number, image.values()).map_err(|(fault, _)| fault)?;
    println!("{:?}", finish(&mut session)?);
    for (item, value) in image
        .items_of(Kind::Variable)
        .zip(session.values().numbers())
    {
        println!("{} {value}", item.name);
    }
    Ok(())
}

/// Goes on to where the method is over.
fn finish(session: &mut Session) -> Result<Turn, Box<dyn Error>> {
    while session.taken() < MOST {
        match session.advance(BUDGET) {
            Turn::Asks(request) => {
                println!("{request:?}");
                session.answer(&Answer::code(0))?;
            }
            Turn::Spent => {}
            over => return Ok(over),
        }
    }
    Err("the method did not end".into())
}
