//! Plants mistakes into the examples: what is said of each leads to what was meant, or at least to nothing
//! else.

#![allow(
    clippy::expect_used,
    clippy::indexing_slicing,
    clippy::panic,
    clippy::string_slice,
    reason = "a test fails by a panic"
)]

mod planted;

use edd_report::{Diagnostic, Style, text};
use edd_source::{Confidence, Source};
use planted::{Outcome, Planted, originals, plant};
use std::env;

/// How many mistakes are planted.
const COUNT: usize = 600;

/// Of so many mistakes one may have more than one diagnostic, or none.
const MOST_UNSAID: usize = 50;

fn outcomes<'r>(
    planted: &'r Planted<'_>,
    shown: &'r [Diagnostic],
) -> impl Iterator<Item = (Outcome, Confidence)> + 'r {
    planted
        .followed(shown)
        .map(|fix| (planted.outcome(fix), fix.confidence))
}

#[test]
fn no_help_that_is_followed_gives_another_description() {
    let originals = originals();
    let all = plant(&originals, COUNT, 17);
    assert_eq!(all.len(), COUNT);
    let mut fixes = 0_usize;
    for planted in &all {
        let report = planted.report();
        for (outcome, _) in outcomes(planted, &report.shown) {
            fixes = fixes.saturating_add(1);
            assert_ne!(outcome, Outcome::Harmful, "{}", planted.title());
        }
        if let Some(outcome) = planted.outcome_of_sure(&report) {
            assert_eq!(outcome, Outcome::Mended, "{}", planted.title());
        }
    }
    assert!(COUNT / 3 < fixes, "{fixes} changes are proposed");
}

#[test]
fn a_sure_change_mends_the_mistake() {
    let originals = originals();
    let mut sure = 0_usize;
    for planted in plant(&originals, COUNT, 18) {
        let report = planted.report();
        for (outcome, _) in
            outcomes(&planted, &report.shown).filter(|(_, it)| *it == Confidence::Sure)
        {
            sure = sure.saturating_add(1);
            assert_eq!(outcome, Outcome::Mended, "{}", planted.title());
        }
    }
    assert!(COUNT / 50 < sure, "{sure} changes are sure");
}

#[test]
fn one_mistake_is_told_once() {
    let originals = originals();
    let mut others = Vec::new();
    for planted in plant(&originals, COUNT, 19) {
        let count = planted.report().shown.len();
        if count != 1 {
            others.push(format!("{count}: {}", planted.title()));
        }
    }
    assert!(others.len() <= COUNT / MOST_UNSAID, "{others:#?}");
}

fn number_in(variable: &str) -> Option<u64> {
    env::var(variable).ok()?.parse().ok()
}

fn print_answer(number: usize, planted: &Planted<'_>) {
    let report = planted.report();
    let source = Source::new(planted.original.name, &planted.text);
    let answer = text(&source, &report, Style::Plain);
    print!("#{number} {}\n{answer}", planted.title());
    let count = report.shown.len();
    if count != 1 {
        println!("diagnostics: {count}");
    }
    for (outcome, confidence) in outcomes(planted, &report.shown) {
        println!("with a change: {outcome:?}, {confidence:?}");
    }
    if let Some(outcome) = planted.outcome_of_sure(&report) {
        println!("with all sure changes: {outcome:?}");
    }
    println!();
}

#[test]
#[ignore = "it prints what is said, for a reader: PLANTED is how many mistakes, and SEED which ones"]
fn print_answers() {
    let count = number_in("PLANTED").unwrap_or(200);
    let count = usize::try_from(count).expect("so many can be planted");
    let originals = originals();
    let all = plant(&originals, count, number_in("SEED").unwrap_or(1));
    for (number, planted) in all.iter().enumerate() {
        print_answer(number, planted);
    }
}
