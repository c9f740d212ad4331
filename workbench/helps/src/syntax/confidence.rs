//! How sure it is that a sign is missing, or too many.

use crate::slips::{Around, At, is_symbol, opening_parenthesis};
use edd_lexer::token::{Token, TokenKind};
use edd_source::Confidence;
use edd_source::tokens::word_of;
use edd_syntax::numbers::Attr;
use edd_syntax::operators::Builtin;
use edd_syntax::symbols::Symbol;

/// How sure it is that a sign is missing before a token: what ends a statement or parts a list is where
/// the line breaks, else something else may be missing or too much.
pub(super) fn confidence_of(at: At<'_>, sign: &str) -> Confidence {
    let (Some(before), Some(token)) = (at.back(1), at.token()) else {
        return Confidence::Guess;
    };
    let breaks = before.line != token.line || is_symbol(token, Symbol::CloseBrace);
    let are_names = before.kind == TokenKind::Name && token.kind == TokenKind::Name;
    let is_sure = match sign {
        ";" => (breaks && is_whole(at, before)) || begins_attribute(token),
        "," => breaks || are_names,
        ")" => true,
        _ => false,
    };
    if is_sure {
        Confidence::Sure
    } else {
        Confidence::Guess
    }
}

fn begins_attribute(token: &Token) -> bool {
    match token.kind {
        TokenKind::Keyword(word) => Attr::begun_by(word).is_some(),
        _ => false,
    }
}

// Whether what ends with the token before is surely a statement of its own: no lone word, which may be a
// misspelled one as `else`, and no parentheses but those of a function or of a value, before which a word
// such as `if` may be missing or misspelled.
fn is_whole(at: At<'_>, before: &Token) -> bool {
    let Some(around) = Around::of(at) else {
        return false;
    };
    let begins_so = around
        .so_far()
        .first()
        .is_some_and(|first| is_symbol(first, Symbol::OpenParenthesis));
    let is_lone = before.kind == TokenKind::Name && around.is_second();
    !begins_so && !is_lone && (!is_symbol(before, Symbol::CloseParenthesis) || closes_value(at))
}

// Whether the parentheses before a token are those of a function, or stand behind an operator.
fn closes_value(at: At<'_>) -> bool {
    let closing = at.number.saturating_sub(1);
    let open = opening_parenthesis(at.tokens, closing);
    let word = open
        .and_then(|open| open.checked_sub(1))
        .and_then(|word| at.tokens.get(word));
    word.is_some_and(|word| match word.kind {
        TokenKind::Name => Builtin::named(word_of(at.text, word)).is_some(),
        TokenKind::Keyword(_) => false,
        TokenKind::Symbol(sign) => !matches!(
            sign,
            Symbol::CloseParenthesis
                | Symbol::Semicolon
                | Symbol::OpenBrace
                | Symbol::CloseBrace
                | Symbol::Colon
        ),
        _ => true,
    })
}

/// How sure it is that a token is one too many: a `;` behind another one, or behind a brace.
pub(super) fn confidence_without(at: At<'_>) -> Confidence {
    let is_idle = at
        .token()
        .is_some_and(|token| is_symbol(token, Symbol::Semicolon))
        && matches!(
            at.kind_back(1),
            Some(TokenKind::Symbol(
                Symbol::Semicolon | Symbol::OpenBrace | Symbol::CloseBrace
            ))
        );
    if is_idle {
        Confidence::Sure
    } else {
        Confidence::Guess
    }
}
