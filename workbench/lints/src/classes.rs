//! Words of CLASS that EDDL does not have.

use crate::context::Context;
use crate::kind::{MenuKind, VariableKind};
use crate::source::{TokenIndex, index};
use crate::warning::Findings;
use edd_lexer::token::TokenKind;
use edd_source::{Confidence, Edit, Fix, Span};
use edd_syntax::item::{Attribute, Item};
use edd_syntax::reference::Target;
use std::collections::HashSet;
use strsim::levenshtein;

/// The classes of variables and methods.
pub const CLASSES: [&str; 31] = [
    "ALARM",
    "ANALOG_INPUT",
    "ANALOG_OUTPUT",
    "COMPUTATION",
    "CONSTANT",
    "CONTAINED",
    "CORRECTION",
    "DEVICE",
    "DIAGNOSTIC",
    "DIGITAL_INPUT",
    "DIGITAL_OUTPUT",
    "DISCRETE",
    "DISCRETE_INPUT",
    "DISCRETE_OUTPUT",
    "DYNAMIC",
    "FACTORY",
    "FREQUENCY_INPUT",
    "FREQUENCY_OUTPUT",
    "HART",
    "INPUT",
    "LOCAL",
    "LOCAL_DISPLAY",
    "MAINTENANCE",
    "OPERATE",
    "OPTIONAL",
    "OUTPUT",
    "SERVICE",
    "SPECIALIST",
    "TEMPORARY",
    "TUNE",
    "USER_INTERFACE",
];

/// The longest word that is compared, in bytes, so that long words take no long time.
const LONGEST: usize = 32;

/// How many letters may differ.
const MOST_EDITS: usize = 2;

/// The word that differs from another one in one or two letters, the nearest first.
pub(crate) fn nearest(
    word: &str,
    all: impl IntoIterator<Item = &'static str>,
) -> Option<&'static str> {
    if LONGEST < word.len() {
        return None;
    }
    let distances = all.into_iter().map(|near| (levenshtein(near, word), near));
    let near = distances.filter(|(edits, _)| *edits <= MOST_EDITS);
    near.min_by_key(|(edits, _)| *edits).map(|(_, near)| near)
}

/// A fix that replaces a word by one that may be meant.
pub(crate) fn replacement(span: Span, text: &str) -> Fix {
    Fix {
        edits: vec![Edit {
            span,
            text: text.to_owned(),
        }],
        confidence: Confidence::Guess,
    }
}

/// The tokens of the words of a CLASS.
fn word_places(word: TokenIndex, context: &Context<'_>) -> impl Iterator<Item = TokenIndex> {
    let rest = context
        .source
        .tokens
        .iter()
        .enumerate()
        .skip(word.saturating_add(1));
    let class = rest
        .step_by(2)
        .take_while(|(_, token)| token.kind == TokenKind::Name);
    class.map(|(at, _)| at)
}

fn check_class(at: TokenIndex, context: &Context<'_>, findings: &mut Findings<'_>) {
    let word = context.source.word(at);
    if CLASSES.contains(&word) {
        return;
    }
    match nearest(word, CLASSES) {
        Some(near) => {
            let fix = replacement(context.source.span(at), near);
            findings.add_fixed(at, MenuKind::MisspelledClass(word.to_owned(), near), fix);
        }
        None => findings.add(at, MenuKind::UnknownClass(word.to_owned())),
    }
}

/// Checks the words of each CLASS of an item.
pub(crate) fn check_classes(
    item: &Item<Target>,
    context: &Context<'_>,
    findings: &mut Findings<'_>,
) {
    for attribute in &item.attributes {
        if let Attribute::Class(word, _) = attribute {
            let mut seen = HashSet::new();
            for at in word_places(index(*word), context) {
                check_class(at, context, findings);
                let class = context.source.word(at);
                if !seen.insert(class) {
                    findings.add(at, VariableKind::RepeatedClass(class.to_owned()));
                }
            }
        }
    }
}
