//! What each name of a text means: which declaration, if any.

use crate::declarations::{Declaration, Declarations, Sort, Words};
use crate::scopes::Scopes;
use crate::spots::{Place, Spot};
use crate::walk::{Item, Map};
use edd_lexer::token::{Token, TokenKind};
use edd_source::tokens::is_sign;
use edd_syntax::numbers::Kind;
use edd_syntax::symbols::Symbol;

/// What is declared, and which declaration each token names.
#[derive(Debug)]
pub(crate) struct Meanings {
    pub(crate) declarations: Declarations,
    pub(crate) of_tokens: Vec<Option<usize>>,
}

struct Resolver<'t> {
    words: Words<'t>,
    items: &'t [Item],
    scopes: Scopes,
    meanings: Meanings,
}

/// Whether a token is this sign.
fn is_kind(token: &Token, sign: Symbol) -> bool {
    token.kind == TokenKind::Symbol(sign)
}

/// The collection whose members come after a declared name and a `.`, by its place among the items.
pub(crate) fn collection_of(
    words: Words<'_>,
    items: &[Item],
    declarations: &Declarations,
    declaration: usize,
) -> Option<usize> {
    let item = match declarations.sort(declaration)? {
        Sort::Item(item) => item,
        Sort::Member { names, .. } => declarations.item(words.number(names?)?)?,
        Sort::Element { .. } | Sort::Local { .. } => return None,
    };
    (items.get(item)?.kind == Kind::Collection).then_some(item)
}

impl Resolver<'_> {
    fn is_sign(&self, token: usize, sign: Symbol) -> bool {
        is_sign(self.words.tokens, token, sign)
    }

    fn meaning(&self, token: usize) -> Option<usize> {
        self.meanings.of_tokens.get(token).copied().flatten()
    }

    fn set_meaning(&mut self, token: usize, declaration: usize) {
        if let Some(meaning) = self.meanings.of_tokens.get_mut(token) {
            *meaning = Some(declaration);
        }
    }

    fn set_declared(&mut self) {
        for index in 0..self.meanings.declarations.all.len() {
            if let Some(declared) = self.meanings.declarations.all.get(index).copied() {
                self.set_meaning(declared.token, index);
            }
        }
    }

    /// The member that a name behind a `.` means.
    fn member(&self, token: usize) -> Option<usize> {
        let owner = self.meaning(token.checked_sub(2)?)?;
        let declarations = &self.meanings.declarations;
        let collection = collection_of(self.words, self.items, declarations, owner)?;
        declarations.inner(collection, self.words.number(token)?)
    }

    /// The element that a number between brackets means.
    fn element(&self, token: usize) -> Option<usize> {
        let behind = token.saturating_add(1);
        if !self.is_sign(token.checked_sub(1)?, Symbol::OpenBracket)
            || !self.is_sign(behind, Symbol::CloseBracket)
        {
            return None;
        }
        let array = self.meaning(token.checked_sub(2)?)?;
        let key = self.words.integer(token)?;
        match self.meanings.declarations.sort(array)? {
            Sort::Item(item) => self.meanings.declarations.inner(item, key),
            _ => None,
        }
    }

    /// What a name means that does not stand behind a `.`.
    fn named(&self, token: usize, place: Place) -> Option<usize> {
        let name = self.words.number(token)?;
        let behind = token.saturating_add(1);
        let item = self.meanings.declarations.item(name);
        if !place.is_in_body() || self.is_sign(behind, Symbol::OpenBracket) {
            return item;
        }
        if self.is_sign(behind, Symbol::OpenParenthesis) {
            return None;
        }
        self.scopes.local(name).or(item)
    }

    fn referred(&self, token: usize, place: Place) -> Option<usize> {
        if !place.refers() {
            return None;
        }
        if self.words.integer(token).is_some() {
            return self.element(token);
        }
        match token.checked_sub(1) {
            Some(before) if self.is_sign(before, Symbol::Dot) => self.member(token),
            _ => self.named(token, place),
        }
    }

    /// Declares a local.
    fn declare(&mut self, token: usize, spot: &Spot) {
        let (Some(open), Some(name)) = (spot.open, self.words.number(token)) else {
            return;
        };
        let all = &mut self.meanings.declarations.all;
        let local = all.len();
        let end = self.words.tokens.len();
        let sort = Sort::Local {
            open,
            from: end,
            until: end,
        };
        all.push(Declaration { sort, token });
        self.set_meaning(token, local);
        self.scopes.declare(open, name, local);
    }

    /// Ends a declarator, behind which its local may be used.
    fn end_declarator(&mut self, token: usize) {
        if let Some(local) = self.scopes.end_declarator()
            && let Some(declared) = self.meanings.declarations.all.get_mut(local)
            && let Sort::Local { from, .. } = &mut declared.sort
        {
            *from = token;
        }
    }

    /// Ends the use of the locals that were declared in the braces of a token, or in any.
    fn close(&mut self, open: Option<usize>, token: usize) {
        self.end_declarator(token);
        for _ in 0..self.scopes.len() {
            let Some(local) = self.scopes.take_back(open) else {
                return;
            };
            if let Some(declared) = self.meanings.declarations.all.get_mut(local)
                && let Sort::Local { until, .. } = &mut declared.sort
            {
                *until = token;
            }
        }
    }

    fn take(&mut self, number: usize, token: &Token, spot: &Spot) {
        if !spot.place.is_in_body() {
            if !self.scopes.is_empty() {
                self.close(None, number);
            }
        } else if is_kind(token, Symbol::CloseBrace) {
            self.close(spot.open, number);
        } else if is_kind(token, Symbol::Semicolon)
            || (is_kind(token, Symbol::Comma) && !spot.is_in_parentheses)
        {
            self.end_declarator(number);
        }
        match token.kind {
            TokenKind::Name if spot.place == Place::Declarator => self.declare(number, spot),
            TokenKind::Name | TokenKind::Integer(_) => {
                if let Some(declaration) = self.referred(number, spot.place) {
                    self.set_meaning(number, declaration);
                }
            }
            _ => {}
        }
    }
}

/// What the names of a text mean.
pub(crate) fn meanings_of(words: Words<'_>, map: &Map) -> Meanings {
    let mut resolver = Resolver {
        words,
        items: &map.items,
        scopes: Scopes::new(words.count),
        meanings: Meanings {
            declarations: Declarations::of(words, map),
            of_tokens: vec![None; words.tokens.len()],
        },
    };
    resolver.set_declared();
    for (number, token) in words.tokens.iter().enumerate() {
        if let Some(spot) = map.spots.get(number) {
            resolver.take(number, token, spot);
        }
    }
    resolver.meanings
}
