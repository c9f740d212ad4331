//! Where a line of a script names variables: where the core reads them.

#![allow(
    clippy::arithmetic_side_effects,
    clippy::panic,
    clippy::unwrap_used,
    reason = "a test fails by a panic"
)]

use core_std::alloc::Global;
use edd_helps::script_names;
use edd_loader::{Image, load};
use edd_script::{Line, parse_line};
use edd_syntax::answer::Answer;
use edd_syntax::numbers::ItemNo;
use proptest::collection::vec;
use proptest::prelude::*;
use proptest::sample::select;
use proptest::test_runner::{Config, RngAlgorithm, TestRng, TestRunner};
use std::cell::Cell;

const SOURCE: &str = "MANUFACTURER 1, DEVICE_TYPE 2, DEVICE_REVISION 3, DD_REVISION 4
VARIABLE a { TYPE INTEGER; } VARIABLE set { TYPE INTEGER; } METHOD m { DEFINITION { } }";

/// Words at the beginning of a line, behind those, and further on.
const WORDS: [&[&str]; 3] = [
    &["set", "answer", "abort", "a"],
    &["a", "set", "m", "0", "-5", "a=1"],
    &["1", "a=1", "set=-2", "a=7", "a=", "m=1"],
];

/// The names of the variables that the core reads in a line; none of a line that it refuses.
fn read(image: &Image<'_>, line: &str) -> Option<Vec<String>> {
    let sets = match parse_line(Global, image, line.as_bytes()).unwrap()? {
        Line::Set(variable, _) => vec![variable],
        Line::Answer(Answer::Go { sets, .. }) => {
            sets.iter().map(|(variable, _)| *variable).collect()
        }
        Line::Answer(Answer::Abort) | Line::Blank => Vec::new(),
    };
    let names = sets
        .into_iter()
        .map(|it| image.name(ItemNo::Variable(it)).unwrap().to_owned());
    Some(names.collect())
}

#[test]
fn the_names_are_those_that_the_core_reads() {
    let compiled = edd_compiler::compile(Global, SOURCE.as_bytes()).unwrap();
    let image = load(Global, &compiled).unwrap();
    let [first, second, later] = WORDS.map(|words| (select(words), 1..3_usize));
    let lines = (first, second, vec(later, 0..3)).prop_map(|(first, second, later)| {
        let words = [first, second].into_iter().chain(later);
        let words = words.map(|(word, blanks)| [word, &" ".repeat(blanks)].concat());
        words.collect::<String>()
    });
    let config = Config {
        failure_persistence: None,
        cases: 2000,
        ..Config::default()
    };
    let random = TestRng::deterministic_rng(RngAlgorithm::ChaCha);
    let accepted = Cell::new(0);
    let ran = TestRunner::new_with_rng(config, random).run(&lines, |line| {
        let names: Vec<_> = script_names(&line)
            .iter()
            .map(|name| name.text(&line).unwrap().to_owned())
            .collect();
        if let Some(read) = read(&image, &line) {
            accepted.set(accepted.get() + usize::from(!read.is_empty()));
            prop_assert_eq!(names, read);
        }
        Ok(())
    });
    assert_eq!(ran, Ok(()));
    assert!(accepted.get() > 30, "{}", accepted.get());
    assert_eq!(read(&image, "answer 0 a=1  set=2").unwrap(), ["a", "set"]);
}
