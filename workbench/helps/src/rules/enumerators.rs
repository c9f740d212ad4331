//! Enumerators by their texts, as makers write them for their numbers.

use super::description::Description;
use edd_lexer::token::{Token, TokenKind};
use edd_source::tokens::{is_sign, word_of};
use edd_syntax::operators::{Comparison, Operator};
use edd_syntax::symbols::Symbol;
use std::collections::HashMap;

/// An enumerator: the token of its number, and the name of its variable.
#[derive(Clone, Copy, Debug)]
pub(super) struct Enumerator<'a> {
    pub(super) number: usize,
    pub(super) variable: &'a str,
}

/// Enumerators by the letters of their texts.
#[derive(Debug, Default)]
pub(super) struct Enumerators<'a>(HashMap<String, Vec<Enumerator<'a>>>);

impl<'a> Enumerators<'a> {
    /// All enumerators of a description.
    pub(super) fn of(text: &'a [u8], tokens: &[Token], around: &Description<'a>) -> Self {
        let mut found: HashMap<String, Vec<Enumerator<'a>>> = HashMap::new();
        for (number, token) in tokens.iter().enumerate() {
            if !is_value(tokens, number) {
                continue;
            }
            let Some((_, item)) = around.around(number) else {
                continue;
            };
            let value = number.saturating_sub(2);
            for variant in variants_of(word_of(text, token)) {
                let enumerator = Enumerator {
                    number: value,
                    variable: item.name(),
                };
                found
                    .entry(letters_of(variant))
                    .or_default()
                    .push(enumerator);
            }
        }
        Enumerators(found)
    }

    /// The enumerator with the text that a name has, of the variable that is compared, if it is the
    /// only one.
    pub(super) fn named(&self, name: &str, compared: Option<&str>) -> Option<Enumerator<'a>> {
        let found = self.0.get(&letters_of(name))?;
        let own = |enumerator: &&Enumerator<'a>| Some(enumerator.variable) == compared;
        if let Some(enumerator) = found.iter().find(own) {
            return Some(*enumerator);
        }
        match found.as_slice() {
            [only] => Some(*only),
            _ => None,
        }
    }
}

// Whether a token is the text of an enumerator: its number stands before it, in its own braces.
fn is_value(tokens: &[Token], number: usize) -> bool {
    let back = |count| number.checked_sub(count).and_then(|at| tokens.get(at));
    let kind = tokens.get(number).map(|token| token.kind);
    kind == Some(TokenKind::String)
        && back(1).is_some_and(|token| token.kind == TokenKind::Symbol(Symbol::Comma))
        && back(2).is_some_and(|token| matches!(token.kind, TokenKind::Integer(_)))
        && back(3).is_some_and(|token| token.kind == TokenKind::Symbol(Symbol::OpenBrace))
}

// The texts of a string, by language.
fn variants_of(string: &str) -> impl Iterator<Item = &str> {
    let text = string.trim_matches('"');
    let (skipped, step) = if text.starts_with('|') {
        (2, 2)
    } else {
        (0, 1)
    };
    text.split('|').skip(skipped).step_by(step)
}

// The letters and digits of a text, in small letters.
fn letters_of(text: &str) -> String {
    text.chars()
        .filter(|letter| letter.is_alphanumeric())
        .flat_map(char::to_lowercase)
        .collect()
}

/// The variable with which what stands at a token is compared, or by whose bits it is masked.
pub(super) fn compared_with<'a>(description: &Description<'a>, number: usize) -> Option<&'a str> {
    let tokens = description.tokens();
    let is_sign_at = |at: Option<usize>| {
        at.is_some_and(|at| {
            [
                Symbol::Comparison(Comparison::Equal),
                Symbol::Comparison(Comparison::NotEqual),
                Symbol::Operator(Operator::And),
                Symbol::Equals,
            ]
            .iter()
            .any(|sign| is_sign(tokens, at, *sign))
        })
    };
    let before = number.checked_sub(1);
    let behind = number.checked_add(1);
    if is_sign_at(before) {
        return Some(description.word(number.checked_sub(2)?));
    }
    is_sign_at(behind).then(|| description.word(number.saturating_add(2)))
}
