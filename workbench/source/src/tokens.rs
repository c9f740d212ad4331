//! What tokens are and how they are written.

use crate::Span;
use edd_lexer::token::{Token, TokenKind};
use edd_syntax::numbers::Kind;
use edd_syntax::symbols::{Keyword, Symbol};

/// A token as it is written.
pub fn word_of<'a>(text: &'a [u8], token: &Token) -> &'a str {
    Span::of(token).read(text)
}

/// Whether the token of a number is this sign.
pub fn is_sign(tokens: &[Token], number: usize, sign: Symbol) -> bool {
    is_kind(tokens, number, TokenKind::Symbol(sign))
}

/// Whether the token of a number is this reserved word.
pub fn is_word(tokens: &[Token], number: usize, word: Keyword) -> bool {
    is_kind(tokens, number, TokenKind::Keyword(word))
}

fn is_kind(tokens: &[Token], number: usize, kind: TokenKind) -> bool {
    tokens.get(number).is_some_and(|token| token.kind == kind)
}

/// The kind of item that a token begins.
pub fn item_kind(token: &Token) -> Option<Kind> {
    match token.kind {
        TokenKind::Keyword(Keyword::Variable) => Some(Kind::Variable),
        TokenKind::Keyword(Keyword::Command) => Some(Kind::Command),
        TokenKind::Keyword(Keyword::Menu) => Some(Kind::Menu),
        TokenKind::Keyword(Keyword::Collection) => Some(Kind::Collection),
        TokenKind::Keyword(Keyword::Method) => Some(Kind::Method),
        TokenKind::Keyword(Keyword::Array) => Some(Kind::Array),
        _ => None,
    }
}

/// The word with which an item of a kind begins in a source.
pub fn kind_word(kind: Kind) -> &'static str {
    match kind {
        Kind::Variable => Keyword::Variable.spelling(),
        Kind::Command => Keyword::Command.spelling(),
        Kind::Menu => Keyword::Menu.spelling(),
        Kind::Collection => Keyword::Collection.spelling(),
        Kind::Method => Keyword::Method.spelling(),
        Kind::Array => Keyword::Array.spelling(),
    }
}

/// How many tokens begin before a line, which is the number of the line's first token.
pub fn tokens_before(tokens: &[Token], line: u32) -> usize {
    tokens.partition_point(|token| token.line < line)
}
