//! The codes of languages in strings, as they are begun.

use crate::Document;
use crate::offers::{CompletionKind, Offers};
use edd_lexer::token::TokenKind;
use edd_source::Span;
use std::collections::BTreeMap;

/// Languages that many descriptions have, with their names.
const LANGUAGES: [(&str, &str); 14] = [
    ("en", "English"),
    ("de", "German"),
    ("fr", "French"),
    ("es", "Spanish"),
    ("it", "Italian"),
    ("pt", "Portuguese"),
    ("nl", "Dutch"),
    ("pl", "Polish"),
    ("cs", "Czech"),
    ("sv", "Swedish"),
    ("ru", "Russian"),
    ("zh", "Chinese"),
    ("ja", "Japanese"),
    ("ko", "Korean"),
];

/// The parts of a string between its bars, without its quotes: with a bar first they are nothing, a
/// code, a text, a code and so on.
fn parts_of(string: &str) -> impl Iterator<Item = &str> {
    let mut is_escaped = false;
    string.split(move |character: char| {
        let is_bar = character == '|' && !is_escaped;
        is_escaped = character == '\\' && !is_escaped;
        is_bar
    })
}

/// The codes of the languages in a string, where it begins with a bar.
fn codes_in(string: &str) -> impl Iterator<Item = &str> {
    let codes = parts_of(string).skip(1).step_by(2);
    codes.filter(|_| string.starts_with('|'))
}

/// The part of a code before a byte in a string; none elsewhere.
pub(crate) fn code_before(document: &Document, byte: usize) -> Option<Span> {
    let string = string_around(document, byte)?;
    let before = Span {
        start: string.start,
        end: byte,
    };
    let before = before.text(document.text())?;
    let is_code = before.starts_with('|') && parts_of(before).count().is_multiple_of(2);
    let begun = parts_of(before).last().filter(|_| is_code)?;
    Some(Span {
        start: byte.saturating_sub(begun.len()),
        end: byte,
    })
}

/// What is between the quotes around a byte.
fn string_around(document: &Document, byte: usize) -> Option<Span> {
    let token = document.token_from(byte);
    if document.kind(token)? != TokenKind::String {
        return None;
    }
    let span = document.span(token)?;
    let inside = Span {
        start: span.start.saturating_add(1),
        end: span.end.saturating_sub(1),
    };
    (inside.start <= byte && byte <= inside.end).then_some(inside)
}

/// The name of a language.
fn name_of(code: &str) -> &'static str {
    let known = LANGUAGES.iter().find(|(known, _)| *known == code);
    known.map_or("a language of this text", |(_, name)| *name)
}

impl Offers<'_> {
    /// The codes that a string does not have before a byte: first those of other strings, the most
    /// frequent first.
    pub(crate) fn add_languages(&mut self, byte: usize) {
        let document = self.document;
        let strings = document.strings();
        let mut counts: BTreeMap<&str, usize> = BTreeMap::new();
        for code in strings.flat_map(codes_in) {
            let count = counts.entry(code).or_default();
            *count = count.saturating_add(1);
        }
        let here = string_around(document, byte);
        let here = here.and_then(|span| span.text(document.text()));
        let taken: Vec<&str> = here.into_iter().flat_map(codes_in).collect();
        let is_code = |code: &&str| (2..=5).contains(&code.len());
        let mut used: Vec<&str> = counts.keys().copied().filter(is_code).collect();
        used.sort_by_key(|code| std::cmp::Reverse(counts.get(code).copied()));
        let others = LANGUAGES.iter().map(|(code, _)| *code);
        let others = others.filter(|code| !counts.contains_key(code));
        for code in used.iter().copied().chain(others) {
            if !taken.contains(&code) {
                self.add(code, CompletionKind::Value, name_of(code));
            }
        }
    }
}

impl Document {
    /// What is between the quotes of each string.
    fn strings(&self) -> impl Iterator<Item = &str> {
        let tokens = self.tokens().iter();
        let strings = tokens.filter(|token| token.kind == TokenKind::String);
        strings.filter_map(|token| {
            let Span { start, end } = Span::of(token);
            let inside = Span {
                start: start.saturating_add(1),
                end: end.saturating_sub(1),
            };
            inside.text(self.text())
        })
    }
}
