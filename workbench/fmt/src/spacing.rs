//! Between which tokens of a line there is no blank.

use crate::roles::Role;
use edd_lexer::token::TokenKind;
use edd_syntax::operators::{Comparison, Operator};
use edd_syntax::symbols::Symbol;

/// Whether a token is written directly after the one before, where both are on one line. It never is
/// where that would make other tokens of them.
pub(crate) fn touches(before: (TokenKind, Role), role: Role, text: &str) -> bool {
    let (kind, before) = before;
    let first = text.as_bytes().first();
    is_joined(before, role) && first.is_some_and(|byte| !is_lengthened(kind, *byte))
}

/// Whether a token of the second role is written directly after one of the first.
fn is_joined(before: Role, role: Role) -> bool {
    match before {
        Role::OpenBrace => false,
        Role::Separator => matches!(role, Role::Separator | Role::Close | Role::CloseHeader),
        Role::Open | Role::OpenAfterName | Role::Prefix | Role::OpenMask | Role::Dot => true,
        _ => matches!(
            role,
            Role::Separator
                | Role::Close
                | Role::CloseHeader
                | Role::Postfix
                | Role::LabelColon
                | Role::CloseMask
                | Role::OpenAfterName
                | Role::Dot
        ),
    }
}

/// Whether a byte directly after a token makes another token of it.
fn is_lengthened(kind: TokenKind, byte: u8) -> bool {
    let goes_on_word = byte.is_ascii_alphanumeric() || byte == b'_';
    match kind {
        TokenKind::Keyword(_) | TokenKind::Name => goes_on_word,
        TokenKind::Integer(_) | TokenKind::Decimal => goes_on_word || byte == b'.',
        TokenKind::String => false,
        TokenKind::Symbol(symbol) => is_symbol_lengthened(symbol, byte),
    }
}

fn is_symbol_lengthened(symbol: Symbol, byte: u8) -> bool {
    match symbol {
        Symbol::Dot => byte.is_ascii_digit(),
        Symbol::Exclamation | Symbol::Equals => byte == b'=',
        Symbol::Operator(operator) => is_operator_lengthened(operator, byte),
        Symbol::Comparison(Comparison::Less) => matches!(byte, b'<' | b'='),
        Symbol::Comparison(Comparison::Greater) => matches!(byte, b'>' | b'='),
        _ => false,
    }
}

fn is_operator_lengthened(operator: Operator, byte: u8) -> bool {
    let further: &[u8] = match operator {
        Operator::Add => b"+=",
        Operator::Subtract => b"-=",
        Operator::Divide => b"/*=",
        Operator::And => b"&=",
        Operator::Or => b"|=",
        _ => b"=",
    };
    further.contains(&byte)
}
