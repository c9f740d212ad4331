//! Where something is to be written, and what stands around there.

use crate::Document;
use edd_lexer::token::TokenKind;
use edd_source::Span;
use edd_syntax::symbols::{Keyword, Symbol};

/// Where something is to be written.
#[derive(Clone, Copy)]
pub(crate) struct Cursor {
    /// The word that is being written, or else the next token.
    pub(crate) token: usize,
    pub(crate) is_written: bool,
    pub(crate) replaced: Span,
}

/// Where something is to be written at a byte; nothing in a number or a string.
pub(crate) fn cursor_at(document: &Document, byte: usize) -> Option<Cursor> {
    let next = Cursor {
        token: document.token_from(byte),
        is_written: false,
        replaced: Span::before(byte),
    };
    let Some(touched) = document.token_at(byte) else {
        return Some(next);
    };
    let span = document.span(touched)?;
    if span.start == byte {
        return Some(next);
    }
    match document.kind(touched)? {
        TokenKind::Name | TokenKind::Keyword(_) => Some(Cursor {
            token: touched,
            is_written: true,
            replaced: Span {
                start: span.start,
                end: byte,
            },
        }),
        TokenKind::Integer(_) | TokenKind::Decimal => None,
        TokenKind::String if byte < span.end => None,
        TokenKind::String | TokenKind::Symbol(_) => Some(next),
    }
}

/// The words that begin something in the braces around a cursor, besides the one that is being
/// written.
pub(crate) fn words_around(document: &Document, cursor: Cursor) -> Vec<Keyword> {
    let here = document.spot(cursor.token);
    let Some(open) = here.open else {
        return Vec::new();
    };
    let is_inside = |token: &usize| {
        let spot = document.spot(*token);
        let is_last = spot.open == Some(open) && document.is_sign(*token, Symbol::CloseBrace);
        !is_last && spot.open.is_some()
    };
    let inside = (open.saturating_add(1)..document.tokens().len()).take_while(is_inside);
    let others = inside.filter(|token| !(cursor.is_written && *token == cursor.token));
    let beginning = others.filter(|token| {
        let spot = document.spot(*token);
        spot.open == Some(open) && spot.place == here.place
    });
    beginning
        .filter_map(|token| match document.kind(token) {
            Some(TokenKind::Keyword(word)) => Some(word),
            _ => None,
        })
        .collect()
}

/// Whether braces are those of an enumerated type: its word comes before them, and maybe its size.
pub(crate) fn is_enumerated(document: &Document, open: usize) -> bool {
    let before = open.saturating_sub(1);
    let word = if document.is_sign(before, Symbol::CloseParenthesis) {
        document.word(open.saturating_sub(4))
    } else {
        document.word(before)
    };
    word == "ENUMERATED" || word == "BIT_ENUMERATED"
}

/// What sort of token is before another one.
pub(crate) fn kind_before(document: &Document, token: usize) -> Option<TokenKind> {
    document.kind(token.checked_sub(1)?)
}

/// Whether a value is still to be written before a token.
pub(crate) fn wants_value(document: &Document, token: usize) -> bool {
    !matches!(
        kind_before(document, token),
        Some(TokenKind::Name | TokenKind::Integer(_) | TokenKind::Decimal | TokenKind::String)
    )
}

/// Whether a statement may begin at a token.
pub(crate) fn begins_statement(document: &Document, token: usize) -> bool {
    matches!(
        kind_before(document, token),
        Some(
            TokenKind::Symbol(
                Symbol::Semicolon
                    | Symbol::OpenBrace
                    | Symbol::CloseBrace
                    | Symbol::CloseParenthesis
                    | Symbol::Colon
            ) | TokenKind::Keyword(Keyword::MethodElse | Keyword::Do)
        )
    )
}

/// Whether a token comes right behind the braces of an IF.
pub(crate) fn is_behind_if(document: &Document, token: usize) -> bool {
    let opened = || {
        let close = token.checked_sub(1)?;
        if !document.is_sign(close, Symbol::CloseBrace) {
            return None;
        }
        let before = document.spot(close).open?.checked_sub(1)?;
        document.word_before_parentheses(before)
    };
    opened() == Some(Keyword::If)
}
