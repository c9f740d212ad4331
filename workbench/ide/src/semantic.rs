//! What each word of a text is, for its colours.

use crate::Document;
use crate::comments::comments_in;
use crate::declarations::Sort;
use crate::place_terms::{Role, meaning_at, role_at};
use edd_lexer::token::TokenKind;
use edd_source::Span;
use edd_syntax::numbers::Kind;
use edd_syntax::operators::Builtin;

/// What a word is.
#[derive(Clone, Copy, Debug, PartialEq, Eq)]
pub enum TokenClass {
    /// A comment.
    Comment,
    /// A reserved word.
    Keyword,
    /// A number.
    Number,
    /// A string.
    String,
    /// An item.
    Item(Kind),
    /// A member of a collection.
    Member,
    /// A local of a method.
    Local,
    /// A function that methods may call.
    Function,
    /// The word of a type, as INTEGER.
    Type,
    /// A word that stands for a value, as READ.
    Value,
}

/// A word or comment with what it is.
#[derive(Clone, Copy, Debug, PartialEq, Eq)]
pub struct SemanticToken {
    /// Its bytes, which may be on several lines.
    pub span: Span,
    /// What it is.
    pub class: TokenClass,
    /// Whether it declares what it names.
    pub is_declaration: bool,
}

impl Document {
    /// What each word and comment of the text is, in their order. Signs and names of nothing are left
    /// out.
    pub fn semantic_tokens(&self) -> Vec<SemanticToken> {
        let mut found = Vec::with_capacity(self.tokens().len());
        for token in 0..=self.tokens().len() {
            let comments = comments_in(self.bytes(), self.gap_before(token));
            found.extend(comments.map(|comment| SemanticToken {
                span: comment.span,
                class: TokenClass::Comment,
                is_declaration: false,
            }));
            found.extend(self.semantic_token(token));
        }
        found
    }

    fn semantic_token(&self, token: usize) -> Option<SemanticToken> {
        let declared = self.meaning(token).and_then(|it| self.declared(it));
        Some(SemanticToken {
            span: self.span(token)?,
            class: self.class_of(token)?,
            is_declaration: declared.is_some_and(|declared| declared.token == token),
        })
    }

    fn class_of(&self, token: usize) -> Option<TokenClass> {
        match self.kind(token)? {
            TokenKind::Keyword(_) => Some(TokenClass::Keyword),
            TokenKind::Integer(_) | TokenKind::Decimal => Some(TokenClass::Number),
            TokenKind::String => Some(TokenClass::String),
            TokenKind::Name => self.class_of_name(token),
            TokenKind::Symbol(_) => None,
        }
    }

    fn class_of_name(&self, token: usize) -> Option<TokenClass> {
        if let Some(declared) = self.meaning(token).and_then(|it| self.declared(it)) {
            return match declared.sort {
                Sort::Item(item) => Some(TokenClass::Item(self.items().get(item)?.kind)),
                Sort::Member { .. } => Some(TokenClass::Member),
                Sort::Local { .. } => Some(TokenClass::Local),
                Sort::Element { .. } => None,
            };
        }
        let (place, word) = (self.spot(token).place, self.word(token));
        if meaning_at(place, word).is_some() {
            let is_type = role_at(place) == Some(Role::Type);
            return Some(if is_type {
                TokenClass::Type
            } else {
                TokenClass::Value
            });
        }
        let is_function = place.is_in_body() && Builtin::named(word).is_some();
        is_function.then_some(TokenClass::Function)
    }
}
