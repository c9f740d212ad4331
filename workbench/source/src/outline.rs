//! Where the items of a text are declared, and which braces are open.

use crate::tokens::{is_sign, is_word, item_kind};
use edd_lexer::token::{Token, TokenKind};
use edd_syntax::numbers::Kind;
use edd_syntax::symbols::{Keyword, Symbol};

/// An item by the number of the token that is its name.
#[derive(Clone, Copy, Debug)]
pub struct Declared {
    /// Its kind.
    pub kind: Kind,
    /// The token that is its name.
    pub name: usize,
}

/// What is known of the tokens of a text.
#[derive(Clone, Debug)]
pub struct Outline {
    /// Of each token the one that opened the innermost braces around it.
    opened: Vec<Option<usize>>,
    /// The items, in order.
    pub items: Vec<Declared>,
}

// The number of the first name from a token on, if there is one before the next brace.
fn name_from(tokens: &[Token], number: usize) -> Option<usize> {
    let mut near = tokens.iter().enumerate().skip(number).take(4);
    let (found, token) =
        near.find(|(_, token)| matches!(token.kind, TokenKind::Name | TokenKind::Symbol(_)))?;
    (token.kind == TokenKind::Name).then_some(found)
}

impl Outline {
    /// The outline of a text with these tokens.
    pub fn of(tokens: &[Token]) -> Outline {
        let mut opened = Vec::with_capacity(tokens.len());
        let mut items = Vec::new();
        let mut open = Vec::new();
        let mut is_behind_of = false;
        for (number, token) in tokens.iter().enumerate() {
            if token.kind == TokenKind::Symbol(Symbol::CloseBrace) {
                open.pop();
            }
            opened.push(open.last().copied());
            if token.kind == TokenKind::Symbol(Symbol::OpenBrace) {
                open.push(number);
            }
            let begins = open.is_empty() && !is_behind_of;
            is_behind_of = token.kind == TokenKind::Keyword(Keyword::Of);
            if begins
                && let Some(kind) = item_kind(token)
                && let Some(name) = name_from(tokens, number.saturating_add(1))
            {
                items.push(Declared { kind, name });
            }
        }
        Outline { opened, items }
    }

    /// The token that opened the innermost braces around a token; after the last one those that are
    /// still open.
    pub fn opened(&self, tokens: &[Token], number: usize) -> Option<usize> {
        match self.opened.get(number) {
            Some(opened) => *opened,
            None => self.open_behind(tokens, tokens.len().checked_sub(1)?),
        }
    }

    /// The token that opened the innermost braces that are open right behind a token.
    pub fn open_behind(&self, tokens: &[Token], number: usize) -> Option<usize> {
        if is_sign(tokens, number, Symbol::OpenBrace) {
            return Some(number);
        }
        self.opened.get(number).copied().unwrap_or(None)
    }

    /// The kind of the last item whose name is before a token.
    pub fn kind_before(&self, number: usize) -> Option<Kind> {
        let before = self.items.partition_point(|item| item.name < number);
        Some(self.items.get(before.checked_sub(1)?)?.kind)
    }

    /// The kind of the item in whose braces a token is, and in no inner ones.
    pub fn kind_around(&self, tokens: &[Token], number: usize) -> Option<Kind> {
        let brace = self.opened(tokens, number)?;
        if self.opened(tokens, brace).is_some() {
            return None;
        }
        self.kind_before(brace)
    }

    /// Whether a name declares something where it is: an item, a member of a collection or a local.
    pub fn declares(&self, tokens: &[Token], number: usize) -> bool {
        let Some(before) = number.checked_sub(1) else {
            return false;
        };
        if self.opened(tokens, number).is_none() {
            return true;
        }
        let is_local =
            is_word(tokens, before, Keyword::Int) || is_word(tokens, before, Keyword::Long);
        is_local || (is_member(tokens, number) && self.is_in_members(tokens, number))
    }

    // Whether the innermost braces around a token are those of MEMBERS.
    fn is_in_members(&self, tokens: &[Token], number: usize) -> bool {
        self.opened(tokens, number)
            .is_some_and(|brace| is_word(tokens, brace.saturating_sub(1), Keyword::Members))
    }
}

/// Whether a token stands where a member of a collection is declared: first in an entry and before a
/// comma.
pub(crate) fn is_member(tokens: &[Token], number: usize) -> bool {
    let before = number.saturating_sub(1);
    let begins =
        is_sign(tokens, before, Symbol::OpenBrace) || is_sign(tokens, before, Symbol::Semicolon);
    begins && is_sign(tokens, number.saturating_add(1), Symbol::Comma)
}
