//! Slips in the lists of attributes.

use super::around::{Around, is_integer, is_symbol, open_brace, open_parenthesis};
use super::{Placed, Slip};
use edd_lexer::token::{Token, TokenKind};
use edd_source::tokens::item_kind;
use edd_syntax::operators::{Comparison, Operator};
use edd_syntax::symbols::{Keyword, Symbol};

/// How many tokens are looked at for the end of qualifiers.
const LONGEST: usize = 64;

/// The qualifiers of the entries of menus.
pub(crate) const MENU_QUALIFIERS: [&str; 4] = ["READ_ONLY", "HIDDEN", "REVIEW", "DISPLAY_VALUE"];

/// The qualifiers of what is in messages.
const DATA_QUALIFIERS: [&str; 2] = ["INFO", "INDEX"];

/// The lists in whose braces a token may be.
#[derive(Clone, Copy, PartialEq, Eq)]
pub(crate) enum List {
    Items,
    Members,
    Elements,
    Codes,
    Message,
    Enumerators,
}

/// The list in whose braces the token is.
pub(crate) fn list_around(around: &Around<'_>) -> Option<List> {
    list_at(around, open_brace(around.at.tokens, around.at.number)?)
}

// The list in the braces that a token opens.
fn list_at(around: &Around<'_>, brace: usize) -> Option<List> {
    let token = around.at.tokens.get(brace.checked_sub(1)?)?;
    match token.kind {
        TokenKind::Keyword(Keyword::Items) => Some(List::Items),
        TokenKind::Keyword(Keyword::Members) => Some(List::Members),
        TokenKind::Keyword(Keyword::Elements) => Some(List::Elements),
        TokenKind::Keyword(Keyword::ResponseCodes) => Some(List::Codes),
        TokenKind::Keyword(Keyword::Request | Keyword::Reply) => Some(List::Message),
        TokenKind::Name => enumerators(around, token),
        // After a size.
        TokenKind::Symbol(Symbol::CloseParenthesis) => {
            enumerators(around, around.at.tokens.get(brace.checked_sub(4)?)?)
        }
        _ => None,
    }
}

fn enumerators(around: &Around<'_>, token: &Token) -> Option<List> {
    match around.word(token) {
        "ENUMERATED" | "BIT_ENUMERATED" => Some(List::Enumerators),
        _ => None,
    }
}

/// Whether an entry of a list begins after a token, if it is in a list.
pub(crate) fn is_before_entry(token: &Token) -> bool {
    matches!(
        token.kind,
        TokenKind::Symbol(Symbol::OpenBrace | Symbol::Semicolon)
    )
}

// An item with the word of its kind, where items are named.
fn named_with_kind(around: &Around<'_>) -> Option<Placed> {
    open_brace(around.at.tokens, around.at.number)?;
    let next = around.at.tokens.get(around.at.number.saturating_add(2))?;
    let is_named = item_kind(around.token).is_some()
        && around.at.ahead()?.kind == TokenKind::Name
        && !is_symbol(next, Symbol::OpenBrace)
        && !around.at.is_in_body();
    if is_named {
        return around.here(Slip::NoKindBeforeName);
    }
    None
}

// Where an entry of a list begins.
fn slip_of_first(list: List, token: TokenKind) -> Option<Slip> {
    let slip = match (list, token) {
        (List::Elements, TokenKind::Symbol(Symbol::Operator(Operator::Subtract))) => {
            Slip::ElementHasNoSign
        }
        (
            List::Elements,
            TokenKind::Name | TokenKind::String | TokenKind::Symbol(Symbol::OpenBracket),
        ) => Slip::ElementBeginsWithNumber,
        (List::Members, TokenKind::Integer(_) | TokenKind::String) => Slip::MemberBeginsWithName,
        (List::Codes, TokenKind::Name | TokenKind::String) => Slip::CodeBeginsWithNumber,
        (List::Enumerators, TokenKind::Integer(_) | TokenKind::String) => Slip::EnumeratorHasBraces,
        (_, TokenKind::Symbol(Symbol::OpenBrace)) => return slip_of_braces(list),
        _ => return None,
    };
    Some(slip)
}

// What is said of braces where an entry of a list begins.
fn slip_of_braces(list: List) -> Option<Slip> {
    match list {
        List::Codes => Some(Slip::CodeHasNoBraces),
        List::Elements => Some(Slip::ElementHasNoBraces),
        List::Members => Some(Slip::MemberHasNoBraces),
        List::Items | List::Message => Some(Slip::EntryHasNoBraces),
        List::Enumerators => None,
    }
}

// Whether two texts with a comma between them are before the token.
fn has_two_texts(around: &Around<'_>) -> bool {
    around.before.kind == TokenKind::String
        && around.at.is_back(2, Symbol::Comma)
        && around.at.kind_back(3) == Some(TokenKind::String)
}

// The parenthesis that is open at the token, in a list.
fn has_open_parenthesis(around: &Around<'_>) -> bool {
    open_parenthesis(around.at).is_some()
}

// Qualifiers with a sign between them, or whose parenthesis is not closed.
fn qualifier(around: &Around<'_>) -> Option<Placed> {
    if list_around(around)? != List::Items || !has_open_parenthesis(around) {
        return None;
    }
    let sign = Symbol::Operator(Operator::And);
    if around.is(sign) || around.is(Symbol::Operator(Operator::Or)) {
        return around.here(Slip::QualifiersSideBySide);
    }
    let is_open = around.follows(Symbol::Comma)
        && !is_qualifier(around.word(around.token))
        && !is_closed_later(around);
    is_open
        .then(|| around.on_before(Slip::QualifiersNotClosed))
        .flatten()
}

// Whether a parenthesis that is open at the token is closed behind it in its list.
fn is_closed_later(around: &Around<'_>) -> bool {
    let behind = around.at.tokens.get(around.at.number..);
    let mut open: usize = 0;
    for token in behind.unwrap_or_default().iter().take(LONGEST) {
        match token.kind {
            TokenKind::Symbol(Symbol::OpenParenthesis) => open = open.saturating_add(1),
            TokenKind::Symbol(Symbol::CloseParenthesis) if open == 0 => return true,
            TokenKind::Symbol(Symbol::CloseParenthesis) => open = open.saturating_sub(1),
            TokenKind::Symbol(Symbol::OpenBrace | Symbol::CloseBrace) => return false,
            _ => {}
        }
    }
    false
}

/// Whether a word is a qualifier of what a menu or a message has.
pub(crate) fn is_qualifier(word: &str) -> bool {
    MENU_QUALIFIERS.contains(&word) || DATA_QUALIFIERS.contains(&word)
}

/// Whether the token is in the braces of an enumerator.
pub(crate) fn is_in_enumerators(around: &Around<'_>) -> bool {
    let brace = open_brace(around.at.tokens, around.at.number);
    brace
        .and_then(|brace| open_brace(around.at.tokens, brace))
        .is_some_and(|outer| list_at(around, outer) == Some(List::Enumerators))
}

// An enumerator whose brace is not closed before the next one.
fn open_enumerator(around: &Around<'_>) -> Option<Placed> {
    let is_next = around.is(Symbol::OpenBrace) && around.follows(Symbol::Comma);
    let is_after_text = around.at.kind_back(2) == Some(TokenKind::String);
    if is_next && is_after_text && is_in_enumerators(around) {
        return around.on_before(Slip::EnumeratorNotClosed);
    }
    None
}

// Whether the token comes after the number of a mask.
fn is_in_mask(around: &Around<'_>) -> bool {
    is_integer(around.before) && around.at.is_back(2, Symbol::Comparison(Comparison::Less))
}

// What goes on in an entry of a list.
fn slip_of_next(around: &Around<'_>, list: List) -> Option<Slip> {
    let slip = match (list, around.token.kind) {
        (List::Codes, TokenKind::String)
            if around.follows(Symbol::Comma)
                && around.at.kind_back(2) == Some(TokenKind::String) =>
        {
            Slip::CodeHasOneText
        }
        (List::Codes, TokenKind::Symbol(Symbol::Semicolon))
            if around.before.kind == TokenKind::Name =>
        {
            Slip::CodeTextMissing
        }
        // After one name alone.
        (List::Members, TokenKind::String)
            if around.follows(Symbol::Comma) && is_before_entry(around.at.back(3)?) =>
        {
            Slip::MemberBeginsWithName
        }
        (List::Members | List::Elements, TokenKind::Symbol(Symbol::Comma))
            if has_two_texts(around) =>
        {
            Slip::NothingAfterHelp
        }
        (List::Items, TokenKind::Symbol(Symbol::Operator(_) | Symbol::Comparison(_))) => {
            Slip::MenuHasNoExpressions
        }
        (List::Message, TokenKind::Symbol(Symbol::Operator(Operator::And))) => Slip::MaskIsWritten,
        (List::Message, TokenKind::Symbol(Symbol::Comma)) if is_in_mask(around) => {
            Slip::MaskIsOneNumber
        }
        (List::Message, TokenKind::Symbol(Symbol::Operator(_))) => Slip::MessageHasNoExpressions,
        _ => return None,
    };
    Some(slip)
}

// A comma for the semicolon after an element, or a mask in parentheses.
fn number_after_name(around: &Around<'_>, list: List) -> Option<Placed> {
    if !is_integer(around.token) || around.at.back(2)?.kind != TokenKind::Name {
        return None;
    }
    match (list, around.before.kind) {
        (List::Elements, TokenKind::Symbol(Symbol::Comma)) => {
            around.on_before(Slip::SemicolonForComma)
        }
        (List::Message, TokenKind::Symbol(Symbol::OpenParenthesis)) => {
            around.on_before(Slip::MaskIsWritten)
        }
        _ => None,
    }
}

// What an enumerator can't have: a value that is computed, or more than two texts.
fn enumerator(around: &Around<'_>) -> Option<Placed> {
    let brace = open_brace(around.at.tokens, around.at.number)?;
    let outer = open_brace(around.at.tokens, brace)?;
    if list_at(around, outer)? != List::Enumerators {
        return None;
    }
    match around.token.kind {
        TokenKind::Symbol(Symbol::Operator(_)) if is_integer(around.before) => {
            around.here(Slip::EnumeratorIsInteger)
        }
        TokenKind::Symbol(Symbol::Comma) if has_two_texts(around) => {
            around.here(Slip::NothingAfterEnumeratorHelp)
        }
        TokenKind::Name
            if around.follows(Symbol::Comma) && around.at.back(2)?.kind == TokenKind::String =>
        {
            around.here(Slip::EnumeratorHelpInQuotes)
        }
        _ => None,
    }
}

// A comma before which nothing stands.
fn lone_comma(around: &Around<'_>) -> Option<Placed> {
    let is_lone = around.is(Symbol::Comma)
        && (around.follows(Symbol::OpenBrace) || around.follows(Symbol::Comma));
    if is_lone && !around.at.is_in_body() {
        return around.here(Slip::LoneComma);
    }
    None
}

// What does not fit in an entry.
fn entry(around: &Around<'_>, list: List) -> Option<Placed> {
    let slip = if is_before_entry(around.before) {
        slip_of_first(list, around.token.kind)
    } else {
        slip_of_next(around, list)
    };
    around.here(slip?)
}

/// A slip in a list.
pub(crate) fn list_slip(around: &Around<'_>) -> Option<Placed> {
    let list = list_around(around);
    lone_comma(around)
        .or_else(|| open_enumerator(around))
        .or_else(|| qualifier(around))
        .or_else(|| enumerator(around))
        .or_else(|| named_with_kind(around))
        .or_else(|| number_after_name(around, list?))
        .or_else(|| entry(around, list?))
}
