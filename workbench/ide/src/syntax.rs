//! What the tokens of a text are and mean. It is made once for a version of the text, in time near to
//! linear.

use crate::declarations::Words;
use crate::lexing::tokens_of;
use crate::meanings::{Meanings, collection_of, meanings_of};
use crate::walk::{Map, map_of};
use edd_lexer::token::{Token, TokenKind};
use edd_source::Span;
use edd_source::tokens::word_of;
use std::collections::HashMap;

/// What the tokens of a text are and mean. Tokens, declarations and items are meant by their places in
/// their lists, counted from 0.
#[derive(Debug)]
pub(crate) struct Syntax {
    pub(crate) tokens: Vec<Token>,
    pub(crate) map: Map,
    /// The number of each token that is a name: names alike have one number.
    numbers: Vec<Option<usize>>,
    /// How many numbers there are.
    count: usize,
    pub(crate) meanings: Meanings,
}

/// The number of each token that is a name, and how many numbers there are.
fn number_names(text: &[u8], tokens: &[Token]) -> (Vec<Option<usize>>, usize) {
    // About one token in four is a name, and most names are there several times.
    let mut names = HashMap::with_capacity(tokens.len() / 16);
    let numbers = tokens
        .iter()
        .map(|token| {
            let next = names.len();
            let word = text.get(Span::of(token).range());
            (token.kind == TokenKind::Name).then(|| *names.entry(word).or_insert(next))
        })
        .collect();
    (numbers, names.len())
}

impl Syntax {
    pub(crate) fn of(text: &[u8]) -> Syntax {
        let tokens = tokens_of(text);
        let map = map_of(&tokens);
        let (numbers, count) = number_names(text, &tokens);
        let words = Words {
            tokens: &tokens,
            numbers: &numbers,
            count,
        };
        let meanings = meanings_of(words, &map);
        Syntax {
            tokens,
            map,
            numbers,
            count,
            meanings,
        }
    }

    pub(crate) fn words(&self) -> Words<'_> {
        Words {
            tokens: &self.tokens,
            numbers: &self.numbers,
            count: self.count,
        }
    }

    /// The collection whose members come behind a declared name and a `.`.
    pub(crate) fn collection_of(&self, declaration: usize) -> Option<usize> {
        let declarations = &self.meanings.declarations;
        collection_of(self.words(), &self.map.items, declarations, declaration)
    }

    /// The number of a name, which is a new one where no token has the name.
    fn number_of(&self, text: &[u8], name: &str) -> usize {
        let mut tokens = self.tokens.iter().zip(&self.numbers);
        let same = tokens.find(|(token, number)| number.is_some() && word_of(text, token) == name);
        same.and_then(|(_, number)| *number).unwrap_or(self.count)
    }

    /// What the tokens would mean if some of them were another name.
    pub(crate) fn meanings_if_named(
        &self,
        text: &[u8],
        is_named: impl Fn(usize) -> bool,
        name: &str,
    ) -> Vec<Option<usize>> {
        let number = Some(self.number_of(text, name));
        let numbers: Vec<_> = self
            .numbers
            .iter()
            .enumerate()
            .map(|(token, old)| if is_named(token) { number } else { *old })
            .collect();
        let words = Words {
            tokens: &self.tokens,
            numbers: &numbers,
            count: self.count.saturating_add(1),
        };
        meanings_of(words, &self.map).of_tokens
    }
}
