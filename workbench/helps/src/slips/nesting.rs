//! Items, definitions, comments and conditions that stand inside of one another, or beside one another,
//! and may not.

use super::around::{Around, is_keyword, open_brace};
use super::lists::{List, list_around};
use super::{Placed, Slip};
use edd_lexer::token::{Token, TokenKind};
use edd_source::Span;
use edd_source::pieces::{Shape, piece_at, pieces_of};
use edd_source::tokens::{is_sign, item_kind};
use edd_syntax::symbols::{Keyword, Symbol};

/// A slip of what stands inside of something else.
pub(crate) fn nesting_slip(around: &Around<'_>) -> Option<Placed> {
    nested_comment(around.at.text, Some(around.before), around.token)
        .or_else(|| word_twice(around))
        .or_else(|| item_in_item(around))
        .or_else(|| second_definition(around))
        .or_else(|| array_of_elements(around))
        .or_else(|| joined_conditions(around))
}

/// A comment right before a token in which another one begins.
pub(crate) fn nested_comment(text: &[u8], before: Option<&Token>, token: &Token) -> Option<Placed> {
    let start = before.map_or(0, |before| Span::of(before).end);
    let end = Span::of(token).start;
    let gap = pieces_of(text.get(..end)?.get(start..)?);
    let last = gap.filter(|piece| piece.shape == Shape::Comment).last()?;
    let comment = text.get(start..)?.get(last.span.range())?;
    let is_block = comment.starts_with(b"/*");
    let begins_again = comment.windows(2).skip(2).any(|pair| pair == b"/*");
    let is_on_line = !text
        .get(start.saturating_add(last.span.end)..end)?
        .contains(&b'\n');
    if is_block && begins_again && is_on_line && closes_later(text, end) {
        let place = Span::of(token);
        let slip = Slip::CommentsNest;
        return Some(Placed { place, slip });
    }
    None
}

// Whether a comment is closed on the line from a place on that was not opened there.
fn closes_later(text: &[u8], place: usize) -> bool {
    let behind = text.get(place..).unwrap_or_default();
    let line = behind.split(|byte| *byte == b'\n').next();
    let line = line.unwrap_or_default();
    let closing = line.windows(2).position(|pair| pair == b"*/");
    closing.is_some_and(|closing| piece_at(line, closing).shape != Shape::Comment)
}

// Whether the words before and at the token are a member and what it is, which may have one name, without
// the comma between them: no third name comes behind a comma.
fn is_member_without_comma(around: &Around<'_>) -> bool {
    let third = around.at.tokens.get(around.at.number.saturating_add(2));
    let has_third = around.at.is_ahead(Symbol::Comma)
        && third.is_some_and(|token| token.kind == TokenKind::Name);
    list_around(around) == Some(List::Members) && !has_third
}

// The same word once more.
fn word_twice(around: &Around<'_>) -> Option<Placed> {
    let is_word = match around.token.kind {
        TokenKind::Name => true,
        // `long long` is a type of other languages.
        TokenKind::Keyword(word) => !matches!(word, Keyword::Int | Keyword::Long),
        _ => false,
    };
    let is_same = around.word(around.before) == around.word(around.token);
    let is_member = is_same && is_member_without_comma(around);
    let is_kind = item_kind(around.token).is_some();
    if is_word && is_same && !is_member && !is_kind && around.is_on_line() {
        return around.here(Slip::WordTwice);
    }
    None
}

// Whether an item with a name and braces begins at the token.
fn begins_item(around: &Around<'_>) -> bool {
    let tokens = around.at.tokens;
    let first = around.at.number;
    let name = match around.at.ahead() {
        Some(next) if is_keyword(next, Keyword::Of) => first.saturating_add(3),
        _ => first.saturating_add(1),
    };
    let is_named = tokens
        .get(name)
        .is_some_and(|token| token.kind == TokenKind::Name);
    is_named && is_sign(tokens, name.saturating_add(1), Symbol::OpenBrace)
}

// An item that is declared in another one, where no brace is missing: it does not begin its line in
// column 1.
fn item_in_item(around: &Around<'_>) -> Option<Placed> {
    item_kind(around.token)?;
    open_brace(around.at.tokens, around.at.number)?;
    let place = Span::of(around.token).start;
    let before = around.at.text.get(..place)?.last();
    if before == Some(&b'\n') || !begins_item(around) {
        return None;
    }
    match list_around(around) {
        Some(_) => around.here(Slip::DeclaredOutside),
        // Behind an attribute the `}` of the item before is missing.
        None if around.follows(Symbol::OpenBrace) => around.here(Slip::ItemInItem),
        None => None,
    }
}

// A DEFINITION right in the braces of another one.
fn second_definition(around: &Around<'_>) -> Option<Placed> {
    let is_second = is_keyword(around.token, Keyword::Definition)
        && around.follows(Symbol::OpenBrace)
        && is_keyword(around.at.back(2)?, Keyword::Definition);
    is_second.then_some(())?;
    around.here(Slip::DefinitionOnce)
}

// An array as other profiles have it, with a type and a number of elements.
fn array_of_elements(around: &Around<'_>) -> Option<Placed> {
    let is_array = is_keyword(around.before, Keyword::Array)
        && around.token.kind == TokenKind::Name
        && around.at.is_ahead(Symbol::OpenBrace);
    let inside = around.at.tokens.get(around.at.number.checked_add(2)?)?;
    if is_array && is_keyword(inside, Keyword::Type) {
        return around.here(Slip::ArrayOfElements);
    }
    None
}

// Two conditions of an attribute or a branch that are joined outside of their parentheses.
fn joined_conditions(around: &Around<'_>) -> Option<Placed> {
    let is_branch = matches!(
        around.word_before()?.kind,
        TokenKind::Keyword(Keyword::If | Keyword::MethodIf | Keyword::While)
    );
    if !is_branch {
        return None;
    }
    match (around.token.kind, around.word(around.token)) {
        (TokenKind::Name, "AND" | "and") => around.here(Slip::JoinedByAnd),
        (TokenKind::Name, "OR" | "or") => around.here(Slip::JoinedByOr),
        (TokenKind::Symbol(Symbol::LogicalAnd | Symbol::LogicalOr), _) => {
            around.here(Slip::ConditionEnds)
        }
        _ => None,
    }
}
