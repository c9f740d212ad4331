//! What the text says of the values of variables and of the numbers of commands.

use crate::Document;
use crate::declarations::Sort;
use crate::described::english;
use crate::spots::{Braces, Place};
use crate::walk::Item;
use edd_lexer::token::TokenKind;
use edd_syntax::numbers::Kind;
use edd_syntax::operators::Comparison;
use edd_syntax::symbols::{Keyword, Symbol};
use std::collections::HashMap;

/// A number that the text gives a name.
#[derive(Clone, Debug)]
pub(crate) struct NamedNumber {
    /// The token that is the number.
    pub(crate) token: usize,
    pub(crate) name: String,
}

impl Document {
    /// The value of a token that is an integer.
    pub(crate) fn integer(&self, token: usize) -> Option<u32> {
        match self.kind(token)? {
            TokenKind::Integer(value) => Some(value),
            _ => None,
        }
    }

    /// The values of an enumerated variable with their texts.
    pub(crate) fn enumerators(&self, item: &Item) -> impl Iterator<Item = NamedNumber> {
        let tokens = item.first..=item.last;
        tokens.filter_map(|token| {
            self.integer(token)?;
            let brace = token.checked_sub(1)?;
            let is_value = self.is_sign(brace, Symbol::OpenBrace)
                && self.spot(brace).place == Place::Start(Braces::Type)
                && self.is_sign(token.checked_add(1)?, Symbol::Comma);
            let words = is_value.then(|| self.words_at(token.saturating_add(2)))??;
            let name = english(&words).to_owned();
            Some(NamedNumber { token, name })
        })
    }

    /// The variable that a name, a member or an element in brackets stands for, by its last token.
    pub(crate) fn variable_ending(&self, token: usize) -> Option<&Item> {
        let named = if self.is_sign(token, Symbol::CloseBracket) {
            token.checked_sub(1)?
        } else {
            token
        };
        let names = match self.declared(self.meaning(named)?)?.sort {
            Sort::Item(item) => self.items().get(item),
            Sort::Member { names, .. } | Sort::Element { names, .. } => self.item_named(names?),
            Sort::Local { .. } => None,
        };
        names.filter(|item| item.kind == Kind::Variable)
    }

    /// The variable with whose values a number at a token is compared: by `==` or `!=`, or as a case.
    pub(crate) fn compared_with(&self, token: usize) -> Option<&Item> {
        let before = token.checked_sub(1)?;
        match self.kind(before)? {
            TokenKind::Symbol(Symbol::Comparison(Comparison::Equal | Comparison::NotEqual)) => {
                self.variable_ending(before.checked_sub(1)?)
            }
            TokenKind::Keyword(Keyword::Case | Keyword::MethodCase) => {
                self.variable_ending(self.selector_of(token)?.checked_sub(1)?)
            }
            _ => None,
        }
    }

    /// The parenthesis behind what the SELECT or `switch` selects in whose braces a token is.
    pub(crate) fn selector_of(&self, token: usize) -> Option<usize> {
        let close = self.spot(token).open?.checked_sub(1)?;
        let word = self.word_before_parentheses(close)?;
        matches!(word, Keyword::Select | Keyword::Switch).then_some(close)
    }

    /// The word before parentheses that a token closes.
    pub(crate) fn word_before_parentheses(&self, close: usize) -> Option<Keyword> {
        if !self.is_sign(close, Symbol::CloseParenthesis) {
            return None;
        }
        let mut depth: usize = 0;
        for token in (0..=close).rev() {
            match self.kind(token)? {
                TokenKind::Symbol(Symbol::CloseParenthesis) => depth = depth.saturating_add(1),
                TokenKind::Symbol(Symbol::OpenParenthesis) => depth = depth.saturating_sub(1),
                TokenKind::Symbol(Symbol::Semicolon | Symbol::OpenBrace | Symbol::CloseBrace) => {
                    return None;
                }
                _ => {}
            }
            if depth == 0 {
                return match self.kind(token.checked_sub(1)?)? {
                    TokenKind::Keyword(word) => Some(word),
                    _ => None,
                };
            }
        }
        None
    }

    /// The token that is the number of a command.
    pub(crate) fn number_of_command(&self, item: &Item) -> Option<usize> {
        if item.kind != Kind::Command {
            return None;
        }
        let number = self.attribute(item, Keyword::Number)?.saturating_add(1);
        self.integer(number).map(|_| number)
    }

    /// The first command of each number.
    pub(crate) fn commands_by_number(&self) -> HashMap<u32, &Item> {
        let mut commands = HashMap::new();
        for item in self.items() {
            let token = self.number_of_command(item);
            if let Some(number) = token.and_then(|token| self.integer(token)) {
                commands.entry(number).or_insert(item);
            }
        }
        commands
    }

    /// The command whose number a token is.
    pub(crate) fn command_named(&self, token: usize) -> Option<&Item> {
        let number = self.integer(token)?;
        self.commands_by_number().remove(&number)
    }

    /// The tokens that are the numbers of the transactions of a command.
    pub(crate) fn transactions(&self, item: &Item) -> impl Iterator<Item = usize> {
        let tokens = item.first..=item.last;
        let words = tokens.filter(|token| {
            self.is_keyword(*token, Keyword::Transaction)
                && matches!(self.spot(*token).place, Place::Start(Braces::Item(_)))
        });
        let numbers = words.map(|token| token.saturating_add(1));
        numbers.filter(|token| self.integer(*token).is_some())
    }
}
