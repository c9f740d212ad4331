//! Slips at parentheses, brackets and braces: those that are missing, or that do not belong there.

use super::around::{Around, is_integer, is_symbol};
use super::lists::{List, is_before_entry, is_in_enumerators, is_qualifier, list_around};
use super::shapes::{is_after_type, is_type};
use super::{Placed, Slip};
use edd_lexer::token::TokenKind;
use edd_source::tokens::item_kind;
use edd_syntax::operators::Operator;
use edd_syntax::symbols::Symbol;

// Whether the token before is the first of a member.
fn begins_member(around: &Around<'_>) -> bool {
    list_around(around) == Some(List::Members) && around.at.back(2).is_some_and(is_before_entry)
}

// A number after another one, after a type, or in brackets.
fn number(around: &Around<'_>) -> Option<Placed> {
    if is_integer(around.before) && around.word(around.token).len() == 3 {
        return around.here(Slip::DigitsSideBySide);
    }
    if is_after_type(around) {
        return around.here(Slip::SizeInParentheses);
    }
    if around.follows(Symbol::OpenBracket)
        && around.at.back(2)?.kind == TokenKind::Name
        && !around.at.is_in_body()
    {
        return around.on_before(Slip::VariableAndNoElement);
    }
    None
}

// A parenthesis that opens after a text, or after a name outside of methods.
fn open_parenthesis(around: &Around<'_>) -> Option<Placed> {
    if around.at.is_in_body() {
        return None;
    }
    match around.before.kind {
        TokenKind::String => around.here(Slip::TextHasNoQualifiers),
        TokenKind::Name if !is_after_type(around) && item_kind(around.at.back(2)?).is_none() => {
            around.on_before(Slip::FunctionsInMethodsAlone)
        }
        _ => None,
    }
}

// What is no mask after a name in a message.
fn mask(around: &Around<'_>) -> Option<Placed> {
    if around.before.kind != TokenKind::Name || list_around(around) != Some(List::Message) {
        return None;
    }
    around.here(if around.is(Symbol::OpenBracket) {
        Slip::MaskAndNoElement
    } else {
        Slip::MaskIsWritten
    })
}

// A brace that closes an enumerator after its number.
fn bare_enumerator(around: &Around<'_>) -> Option<Placed> {
    if is_integer(around.before)
        && is_symbol(around.at.back(2)?, Symbol::OpenBrace)
        && is_in_enumerators(around)
    {
        return around.here(Slip::EnumeratorHasText);
    }
    None
}

// Parentheses with nothing in them, outside of methods.
fn empty_parentheses(around: &Around<'_>) -> Option<Placed> {
    let word = around.at.back(2)?;
    let is_empty = around.follows(Symbol::OpenParenthesis) && !around.at.is_in_body();
    if is_empty && is_type(around.word(word)) {
        return around.on_before(Slip::SizeInTheseParentheses);
    }
    if is_empty && word.kind == TokenKind::Name {
        return around.on_before(Slip::NameWithoutParentheses);
    }
    None
}

// Qualifiers of which the parenthesis that opens is missing.
fn unopened_qualifiers(around: &Around<'_>) -> Option<Placed> {
    let is_open = super::open_parenthesis(around.at).is_some();
    if is_open || !is_qualifier(around.word(around.before)) {
        return None;
    }
    around.here(Slip::ParenthesisNotOpen)
}

// A parenthesis for the brace before the first enumerator.
fn enumerators_in_parentheses(around: &Around<'_>) -> Option<Placed> {
    let word = around.word(around.at.back(2)?);
    if !matches!(word, "ENUMERATED" | "BIT_ENUMERATED") {
        return None;
    }
    around.on_before(Slip::EnumeratorsInBraces)
}

/// A slip at a parenthesis, a bracket or a brace.
pub(crate) fn bracket_slip(around: &Around<'_>) -> Option<Placed> {
    let is_after_name = around.before.kind == TokenKind::Name;
    match around.token.kind {
        TokenKind::Integer(_) => number(around),
        TokenKind::String if is_after_name && around.at.is_in_body() => {
            around.here(Slip::TextInParentheses)
        }
        TokenKind::Symbol(Symbol::OpenParenthesis) => open_parenthesis(around),
        TokenKind::Symbol(Symbol::CloseParenthesis) => {
            unopened_qualifiers(around).or_else(|| empty_parentheses(around))
        }
        TokenKind::Symbol(Symbol::OpenBrace) if around.follows(Symbol::OpenParenthesis) => {
            enumerators_in_parentheses(around)
        }
        TokenKind::Symbol(Symbol::CloseBrace) => bare_enumerator(around),
        TokenKind::Symbol(
            Symbol::OpenBracket
            | Symbol::Operator(Operator::And)
            | Symbol::Colon
            | Symbol::OpenBrace,
        ) => mask(around),
        TokenKind::Symbol(Symbol::Semicolon) if is_after_name && begins_member(around) => {
            around.here(Slip::MemberHasName)
        }
        _ => None,
    }
}
