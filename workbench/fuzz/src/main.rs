//! Gives the plain edition damaged and grown texts and images, and says where it does other than it
//! must. A case depends on the seed, its number and the folder alone.
//!
//!     edd_plain_fuzz FOLDER COUNT [SEED [FIRST]]     the cases from FIRST on, over the sources in FOLDER
mod counts;
mod damage;
mod dice;
mod grown;
mod images;
mod sessions;
mod texts;

use counts::Counts;
use dice::Dice;
use std::panic::{AssertUnwindSafe, catch_unwind};
use std::process::ExitCode;

/// After so many cases one line says how far it is.
const OFTEN: u64 = 1_000_000;

/// The sources, and images of texts that were accepted.
struct Given {
    texts: Vec<Vec<u8>>,
    images: Vec<Vec<u8>>,
}

impl Given {
    fn read(folder: &str) -> std::io::Result<Given> {
        let mut names: Vec<_> = std::fs::read_dir(folder)?.collect::<Result<_, _>>()?;
        names.sort_by_key(std::fs::DirEntry::file_name);
        let mut given = Given {
            texts: Vec::new(),
            images: Vec::new(),
        };
        for name in names {
            let data = std::fs::read(name.path())?;
            if data.starts_with(b"EDI1") {
                given.images.push(data)
            } else {
                given.texts.push(data)
            }
        }
        for text in &given.texts {
            if let Ok(image) = edd_compiler::compile(edd_plain_std::alloc::Global, text) {
                given.images.push(image.into_real());
            }
        }
        Ok(given)
    }
}

/// One case: a damaged text, a grown text or a damaged image; each text's image is tried, and damaged.
fn case(given: &Given, dice: &mut Dice, counts: &mut Counts) -> Result<(), String> {
    if dice.one_in(2) {
        let (one, other) = (
            dice.below(given.images.len()),
            dice.below(given.images.len()),
        );
        let image = damage::image(dice, &given.images[one], &given.images[other]);
        images::tried(&image, dice, counts)?;
        return Ok(());
    }
    let is_grown = dice.one_in(4);
    let text = if is_grown {
        grown::text(dice)
    } else {
        let (one, other) = (dice.below(given.texts.len()), dice.below(given.texts.len()));
        damage::text(dice, &given.texts[one], &given.texts[other])
    };
    let image = match texts::tried(&text, counts)? {
        Ok(image) => image,
        Err(fault) if is_grown => return Err(format!("a grown text is refused: {fault}")),
        Err(_) => return Ok(()),
    };
    if !images::tried(&image, dice, counts)? {
        return Err("the image of an accepted text is refused".into());
    }
    let damaged = damage::image(dice, &image, &image);
    counts.inputs += 1;
    images::tried(&damaged, dice, counts)?;
    Ok(())
}

fn run(folder: &str, count: u64, seed: u64, first: u64) -> std::io::Result<Counts> {
    let given = Given::read(folder)?;
    let mut counts = Counts::default();
    let mut number = first;
    while counts.inputs < count {
        let mut dice = Dice::of_case(seed, number);
        counts.inputs += 1;
        let ended = catch_unwind(AssertUnwindSafe(|| case(&given, &mut dice, &mut counts)));
        if let Some(why) = ended.map_or(Some("a panic".to_owned()), Result::err) {
            counts.wrong += 1;
            println!("WRONG in the case {number}: {why}");
        }
        number += 1;
        if number.is_multiple_of(OFTEN) {
            println!("{} inputs", counts.inputs);
        }
    }
    Ok(counts)
}

fn main() -> ExitCode {
    let words: Vec<String> = std::env::args().skip(1).collect();
    let numbers: Vec<u64> = words
        .iter()
        .skip(1)
        .filter_map(|word| word.parse().ok())
        .collect();
    if numbers.is_empty() || numbers.len() + 1 != words.len() {
        eprintln!("usage: edd_plain_fuzz FOLDER COUNT [SEED [FIRST]]");
        return ExitCode::from(2);
    }
    let (seed, first) = (
        numbers.get(1).copied().unwrap_or(1),
        numbers.get(2).copied().unwrap_or(0),
    );
    match run(&words[0], numbers[0], seed, first) {
        Ok(counts) => {
            counts.print();
            ExitCode::from(u8::from(counts.wrong > 0))
        }
        Err(error) => {
            eprintln!("{}: {error}", words[0]);
            ExitCode::from(2)
        }
    }
}
