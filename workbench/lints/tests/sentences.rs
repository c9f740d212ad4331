//! Plays the list of sentences: where each lint points in its example, and what it says.

use core_std::alloc::Global;
use edd_compiler::checked_of;
use edd_lexer::lex;
use edd_lints::{LINTS, Levels, Lint, Warning, find};
use edd_source::Span;

const LIST: &str = include_str!("sentences.txt");

const HEAD: &str = "MANUFACTURER 1, DEVICE_TYPE 2, DEVICE_REVISION 3, DD_REVISION 4\n";

fn example_of(lint: Lint) -> String {
    format!("{HEAD}{}\n", lint.example())
}

/// The first warning of a lint in its example.
fn first_of(lint: Lint, text: &str) -> Option<Warning> {
    let tokens = lex(Global, text.as_bytes()).ok()?;
    let description = checked_of(Global, text.as_bytes()).ok()?;
    let warnings = find(text.as_bytes(), &tokens, &description, &Levels::warn_all());
    warnings
        .into_iter()
        .find(|warning| warning.kind.lint() == lint)
}

/// The line and the word of a span.
fn place(text: &str, span: Span) -> String {
    let before = text.get(..span.start).unwrap_or_default();
    let line = before.matches('\n').count().saturating_add(1);
    let word = span.text(text).unwrap_or_default().escape_default();
    format!("{line} {word}")
}

/// A line of the list.
fn written(text: &str, warning: &Warning) -> String {
    let others = warning.related.iter();
    let others: String = others
        .map(|one| format!(" at {}", place(text, one.span)))
        .collect();
    let (name, at) = (warning.kind.lint().name(), place(text, warning.span));
    format!("{name}: {at}{others}: {}", warning.kind)
}

#[test]
fn each_lint_has_the_place_and_the_sentence_of_the_list() {
    let lines: Vec<_> = LIST.lines().filter(|line| !line.starts_with('#')).collect();
    assert_eq!(lines.len(), LINTS.len());
    for (lint, line) in LINTS.into_iter().zip(lines) {
        let text = example_of(lint);
        let warning = first_of(lint, &text).expect("the example has a warning");
        assert_eq!(written(&text, &warning), line);
    }
}
