//! Each call that asks something of its callers, and that the library uses, is named in
//! `requirements.rs`.
//!
//! The sources of the core say which of its calls ask: those with a `requires`. The sources of
//! `workbench/legacy` have no contracts, so the calls there that ask are listed here.

#![allow(clippy::expect_used, reason = "a test fails by a panic")]

mod common;

use common::sources_in;
use std::collections::BTreeSet;

/// The calls that ask for something and that the library uses.
const TRIED: [&str; 10] = [
    "attribute_of_device",
    "element_array",
    "element_number",
    "element_variable",
    "help",
    "label",
    "number_of",
    "open",
    "reopen",
    "reply",
];

/// The calls of `legacy_screens` that ask for values of the image. No other public call of the
/// legacy packages that the library depends on asks for anything.
const ASKING_OF_LEGACY: [&str; 3] = ["help", "label", "words"];

/// Names that such calls share with calls that ask for nothing, which the library uses.
const SHARED: [&str; 7] = ["counts", "decode", "find", "new", "perform", "push", "set"];

/// Whoever uses one more call that asks for something names it, and tries it.
#[test]
fn each_call_that_asks_for_something_is_named() {
    let mut asking = BTreeSet::new();
    let manifest = include_str!("../Cargo.toml");
    for line in manifest.lines().filter(|line| line.contains("/core/")) {
        let name = line.split(" = ").next().unwrap_or(line);
        for source in sources_in(&format!("crates/{name}/src"), "rt") {
            asking.extend(calls_with_requires(&source));
        }
    }
    assert!(asking.len() > 50, "the core's contracts are read");
    asking.extend(ASKING_OF_LEGACY.map(str::to_owned));
    let library = sources_in("workbench/edd/src", "rs").join("\n");
    // What stands before each parenthesis.
    let pieces = library
        .split('(')
        .map(|piece| piece.rsplit(is_no_letter).next());
    let called: BTreeSet<&str> = pieces.flatten().collect();
    asking.retain(|name| called.contains(name.as_str()));
    let named = TRIED.iter().chain(&SHARED).map(|name| (*name).to_owned());
    assert_eq!(asking, named.collect());
    let tests = include_str!("requirements.rs");
    for name in TRIED {
        assert!(tests.contains(name), "{name} is tried");
    }
}

fn is_no_letter(letter: char) -> bool {
    !letter.is_alphanumeric() && letter != '_'
}

/// The public functions of a source of the core that have a `requires`.
fn calls_with_requires(source: &str) -> Vec<String> {
    let mut found = Vec::new();
    let mut current = None;
    for line in source.lines().map(str::trim) {
        if let Some(rest) = line.strip_prefix("pub fn ") {
            current = rest.split(['(', '<']).next();
        }
        if line.starts_with("requires") {
            found.extend(current.take().map(str::to_owned));
        }
        if line.ends_with('{') && !line.contains("ensures") {
            current = None;
        }
    }
    found
}
