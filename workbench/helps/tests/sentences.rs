//! What is said, as sentences.

use edd_helps::{Foreign, ScriptSlip, Slip, TextHelp};
use std::collections::HashSet;

fn sentences() -> Vec<&'static str> {
    let slips = Slip::ALL.iter().map(|it| it.sentence());
    let texts = TextHelp::ALL.iter().map(|it| it.sentence());
    let names = Foreign::ALL.iter().map(|it| it.sentence());
    let words = ScriptSlip::ALL.iter().map(|it| it.sentence());
    slips.chain(texts).chain(names).chain(words).collect()
}

#[test]
fn each_slip_says_something_else() {
    let mut said = HashSet::new();
    for slip in Slip::ALL {
        assert!(
            said.insert(slip.sentence()),
            "{slip:?} says what another one says"
        );
    }
}

#[test]
fn a_sentence_is_one_line_that_goes_on_a_line_of_help() {
    for sentence in sentences() {
        assert!(!sentence.is_empty() && sentence.len() < 140, "{sentence}");
        assert!(
            !sentence.contains(['\n', '\t']) && !sentence.contains("  "),
            "{sentence}"
        );
        assert!(
            !sentence.ends_with('.') && sentence.trim() == sentence,
            "{sentence}"
        );
    }
}

#[test]
fn the_examples_in_slips_are_in_their_braces() {
    for sentence in sentences() {
        let count = |sign| sentence.matches(sign).count();
        let examples = sentence.contains(" as in ");
        assert!(!examples || count('(') == count(')'), "{sentence}");
        assert!(!examples || count('{') == count('}'), "{sentence}");
    }
}
