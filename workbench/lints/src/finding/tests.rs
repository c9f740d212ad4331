//! However a description is parted, its warnings are the same.

#![allow(
    clippy::arithmetic_side_effects,
    clippy::panic,
    reason = "a test fails by a panic"
)]

use super::*;
use crate::levels::Level;
use crate::lint::LINTS;
use edd_compiler::checked_of;
use edd_lexer::lex;
use edd_source::Span;
use proptest::collection::vec;
use proptest::prelude::*;
use proptest::sample::Index;
use proptest::test_runner::{Config, RngAlgorithm, TestRng, TestRunner};
use std::cell::Cell;

const LISTS: [&str; 6] = [
    include_str!("../../tests/doubtful.txt"),
    include_str!("../../tests/doubtful_more.txt"),
    include_str!("../../tests/doubtful_third.txt"),
    include_str!("../../tests/doubtful_fourth.txt"),
    include_str!("../../tests/doubtful_fifth.txt"),
    include_str!("../../tests/careful.txt"),
];

/// The indented parts of the lists. The first one is what the others are put behind.
fn pieces() -> Vec<String> {
    let lines = LISTS.iter().flat_map(|list| list.lines().chain([""]));
    let lines: Vec<_> = lines.map(|line| line.strip_prefix("    ")).collect();
    let pieces = lines
        .split(Option::is_none)
        .filter(|lines| !lines.is_empty());
    pieces
        .map(|lines| {
            lines
                .iter()
                .flatten()
                .copied()
                .collect::<Vec<_>>()
                .join("\n")
        })
        .collect()
}

/// A text in which words are put in the places of others of their sort.
fn edited(text: &str, edits: &[(Index, Index)]) -> String {
    let Ok(tokens) = lex(Global, text.as_bytes()) else {
        return text.to_owned();
    };
    let mut edits: Vec<_> = edits
        .iter()
        .map(|(at, of)| {
            let at = at.get(&tokens);
            let alike = tokens.iter().filter(|token| {
                std::mem::discriminant(&token.kind) == std::mem::discriminant(&at.kind)
            });
            let alike: Vec<_> = alike.collect();
            (Span::of(at), Span::of(of.get::<&Token>(&alike)))
        })
        .collect();
    edits.sort();
    let mut edited = text.to_owned();
    for (at, of) in edits.into_iter().rev() {
        edited.replace_range(at.range(), of.read(text.as_bytes()));
    }
    edited
}

/// How many warnings a text has, however it is parted; none if it is refused.
fn count_in_parts(text: &str) -> Option<usize> {
    let bytes = text.as_bytes();
    let tokens = lex(Global, bytes).ok()?;
    let description = checked_of(Global, bytes).ok()?;
    let source = Source {
        text: bytes,
        tokens: &tokens,
    };
    let mut levels = Levels::default();
    LINTS.iter().for_each(|lint| levels.set(*lint, Level::Warn));
    let find =
        |length, helpers| find_in_parts(source, &description, &levels, length, Threads(helpers));
    let whole = find(TokenIndex::MAX, 0);
    assert_eq!(find(1, 0), whole, "{text}");
    assert_eq!(find(50, 3), whole, "{text}");
    Some(whole.len())
}

#[test]
fn parts_have_the_warnings_of_the_whole() {
    let pieces = pieces();
    let [base, others @ ..] = pieces.as_slice() else {
        panic!("no pieces");
    };
    let (tried, found) = (Cell::new(0), Cell::new(0));
    let config = Config {
        failure_persistence: None,
        ..Config::with_cases(2200)
    };
    let random = TestRng::deterministic_rng(RngAlgorithm::ChaCha);
    let edits = vec((any::<Index>(), any::<Index>()), 0..3);
    let ran =
        TestRunner::new_with_rng(config, random).run(&(any::<Index>(), edits), |(piece, edits)| {
            let text = format!("{base}\n{}", piece.get(others));
            if let Some(count) = count_in_parts(&edited(&text, &edits)) {
                tried.set(tried.get() + 1);
                found.set(found.get() + count);
            }
            Ok(())
        });
    assert!(ran.is_ok(), "{ran:?}");
    println!("{} descriptions, {} warnings", tried.get(), found.get());
    assert!(tried.get() > 1000 && found.get() > 2500);
}
