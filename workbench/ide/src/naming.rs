//! Where a name is declared and used, and what another name in its place would do.

use crate::Document;
use crate::core::lex;
use crate::declarations::Sort;
use edd_lexer::token::TokenKind;
use edd_source::Span;
use thiserror::Error;

/// The longest name, in bytes.
const LONGEST: usize = 255;

/// Why a name is not changed.
#[derive(Clone, Copy, Debug, PartialEq, Eq, Error)]
pub enum RenameError {
    /// No name that is declared in the text.
    #[error("nothing here has a name of its own")]
    NothingHere,
    /// The new name is none: letters, digits and `_`, at most 255, and no digit first.
    #[error("it is no name")]
    NotAName,
    /// The new name is a reserved word.
    #[error("it is a reserved word")]
    Reserved,
    /// The new name is taken where it would stand: the place that has it, or whose meaning would be
    /// another.
    #[error("it is declared already")]
    Clash(Span),
}

impl Document {
    /// Where what is named at a byte is declared: an item, a member of a collection, an element of an
    /// array by its number, or a local.
    pub fn declaration(&self, byte: usize) -> Option<Span> {
        let meaning = self.meaning(self.token_at(byte)?)?;
        self.span(self.declared(meaning)?.token)
    }

    /// All places where what is named at a byte is named, in their order; that of its declaration too
    /// if `declared`.
    pub fn references(&self, byte: usize, declared: bool) -> Vec<Span> {
        let meaning = self.token_at(byte).and_then(|token| self.meaning(token));
        meaning.map_or_else(Vec::new, |meaning| self.places_of(meaning, declared))
    }

    /// The places at which a declaration is named.
    pub(crate) fn places_of(&self, declaration: usize, declared: bool) -> Vec<Span> {
        let own = self.declared(declaration).map(|found| found.token);
        let meanings = self.meanings().iter().enumerate();
        meanings
            .filter(|(_, meaning)| **meaning == Some(declaration))
            .filter(|(token, _)| declared || own != Some(*token))
            .filter_map(|(token, _)| self.span(token))
            .collect()
    }

    /// The name at a byte, where it can be changed.
    pub fn renameable(&self, byte: usize) -> Option<Span> {
        self.span(self.declared_name_at(byte)?.0)
    }

    /// The token of a name at a byte, and the declaration that it names.
    fn declared_name_at(&self, byte: usize) -> Option<(usize, usize)> {
        let token = self.token_at(byte)?;
        let is_name = self.kind(token) == Some(TokenKind::Name);
        Some((token, self.meaning(token)?)).filter(|_| is_name)
    }

    /// The places at which the name at a byte is to be replaced by another one, in their order.
    ///
    /// # Errors
    ///
    /// Nothing is declared there, or the text would mean something else with the new name.
    pub fn rename(&self, byte: usize, name: &str) -> Result<Vec<Span>, RenameError> {
        let Some((_, declaration)) = self.declared_name_at(byte) else {
            return Err(RenameError::NothingHere);
        };
        self.rename_declared(declaration, name)
    }

    /// The places at which a declaration is to get another name.
    pub(crate) fn rename_declared(
        &self,
        declaration: usize,
        name: &str,
    ) -> Result<Vec<Span>, RenameError> {
        check_name(name)?;
        if let Some(token) = self.clash(declaration, name) {
            let span = self.span(token).unwrap_or(Span::before(0));
            return Err(RenameError::Clash(span));
        }
        Ok(self.places_of(declaration, true))
    }

    /// The token that a new name would clash with. The names are looked up once more with it, so that
    /// no use is captured or hidden.
    fn clash(&self, declaration: usize, name: &str) -> Option<usize> {
        if let Some(token) = self.taken(declaration, name) {
            return Some(token);
        }
        let after = self.meanings_if_named(declaration, name);
        self.changed(declaration, &after)
    }

    /// Another declaration that has a name where a declaration may not have it too.
    fn taken(&self, declaration: usize, name: &str) -> Option<usize> {
        let sort = self.declared(declaration)?.sort;
        let mut others = self.declarations().iter().enumerate();
        let is_taken = others.find(|(index, other)| {
            *index != declaration && self.word(other.token) == name && exclude(sort, other.sort)
        });
        is_taken.map(|(_, other)| other.token)
    }

    /// The first token that would mean something else: what it would mean, or it, where that is what
    /// is renamed.
    fn changed(&self, declaration: usize, after: &[Option<usize>]) -> Option<usize> {
        let mut tokens = after.iter().zip(self.meanings()).enumerate();
        let (token, (meaning, _)) = tokens.find(|(_, (after, before))| after != before)?;
        match meaning {
            Some(other) if *other != declaration => Some(self.declared(*other)?.token),
            _ => Some(token),
        }
    }
}

/// Whether a word can be a name.
fn check_name(word: &str) -> Result<(), RenameError> {
    if LONGEST < word.len() {
        return Err(RenameError::NotAName);
    }
    let tokens = lex(word.as_bytes()).map_err(|_| RenameError::NotAName)?;
    let [token] = tokens.as_slice() else {
        return Err(RenameError::NotAName);
    };
    let is_whole = Span::of(token).range() == (0..word.len());
    match token.kind {
        TokenKind::Name if is_whole => Ok(()),
        TokenKind::Keyword(_) if is_whole => Err(RenameError::Reserved),
        _ => Err(RenameError::NotAName),
    }
}

/// Whether two declarations may not have one name.
fn exclude(first: Sort, second: Sort) -> bool {
    match (first, second) {
        (Sort::Item(_), Sort::Item(_)) => true,
        (
            Sort::Member {
                collection: first, ..
            },
            Sort::Member {
                collection: second, ..
            },
        ) => first == second,
        (Sort::Local { open: first, .. }, Sort::Local { open: second, .. }) => first == second,
        _ => false,
    }
}
