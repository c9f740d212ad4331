//! The value of an expression of numbers alone.

use crate::Document;
use crate::core::read;
use edd_constants::{Known, evaluate};
use edd_instructions::Sort;
use edd_lexer::token::TokenKind;
use edd_source::Span;
use edd_syntax::cond::Cond;
use edd_syntax::item::{Attribute, Item, TypePart};
use edd_syntax::numbers::NumberOption;
use edd_syntax::reference::Target;
use edd_syntax::symbols::Symbol;

/// How many tokens to each side are looked at.
const MOST: usize = 100;

/// A description whose only variable has a default value, up to that value and behind it.
const BEFORE: &str = "MANUFACTURER 0 DEVICE_TYPE 0 DEVICE_REVISION 0 DD_REVISION 0 \
    VARIABLE v { TYPE INTEGER { DEFAULT_VALUE ";

const BEHIND: &str = "\n; } }";

/// Whether a token may be in an expression of numbers.
fn is_part(kind: Option<TokenKind>) -> bool {
    match kind {
        Some(TokenKind::Integer(_)) => true,
        Some(TokenKind::Symbol(sign)) => matches!(
            sign,
            Symbol::Operator(_)
                | Symbol::Comparison(_)
                | Symbol::LogicalAnd
                | Symbol::LogicalOr
                | Symbol::Exclamation
                | Symbol::Tilde
                | Symbol::OpenParenthesis
                | Symbol::CloseParenthesis
        ),
        _ => false,
    }
}

/// Whether an expression may end before a token, or may begin behind it.
fn bounds(kind: Option<TokenKind>, is_before: bool) -> bool {
    match kind {
        Some(TokenKind::Keyword(_)) => is_before,
        Some(TokenKind::Symbol(sign)) => match sign {
            Symbol::Comma | Symbol::Semicolon | Symbol::Question | Symbol::Colon => true,
            Symbol::Equals
            | Symbol::CompoundAssign(_)
            | Symbol::OpenParenthesis
            | Symbol::OpenBracket
            | Symbol::OpenBrace => is_before,
            Symbol::CloseParenthesis | Symbol::CloseBracket | Symbol::CloseBrace => !is_before,
            _ => false,
        },
        _ => false,
    }
}

/// The token at which one of numbers ends to one side; nothing where parentheses don't balance.
fn end_of(document: &Document, token: usize, is_before: bool) -> Option<usize> {
    let (opens, closes) = if is_before {
        (Symbol::CloseParenthesis, Symbol::OpenParenthesis)
    } else {
        (Symbol::OpenParenthesis, Symbol::CloseParenthesis)
    };
    let is_opening = document.kind(token) == Some(TokenKind::Symbol(opens));
    let mut depth = usize::from(is_opening);
    let mut last = token;
    for count in 1..=MOST {
        let next = if is_before {
            token.checked_sub(count)?
        } else {
            token.saturating_add(count)
        };
        let kind = document.kind(next);
        let ends = kind == Some(TokenKind::Symbol(closes)) && depth == 0;
        if ends || !is_part(kind) {
            return (depth == 0 && bounds(kind, is_before)).then_some(last);
        }
        if kind == Some(TokenKind::Symbol(opens)) {
            depth = depth.saturating_add(1);
        } else if kind == Some(TokenKind::Symbol(closes)) {
            depth = depth.saturating_sub(1);
        }
        last = next;
    }
    None
}

/// The expression of the default value of a description's first variable.
fn value_of(items: &[Item<Target>], sort: Sort) -> Known {
    if let Some(item) = items.first()
        && let [Attribute::TypeOf { parts, .. }] = item.attributes()
        && let [
            TypePart::OneNumber {
                which: NumberOption::DefaultValue,
                value: Cond::Value(value),
                ..
            },
        ] = parts.as_slice()
    {
        return evaluate(value, sort);
    }
    Known::Nothing
}

/// The value of an expression, as the core evaluates it in a description of its own.
pub(crate) fn evaluate_source(source: &str, sort: Sort) -> Known {
    match read(&format!("{BEFORE}{source}{BEHIND}")) {
        Some(description) => value_of(&description.items, sort),
        None => Known::Nothing,
    }
}

/// The expression of numbers alone around a token: its place. An operator is in none by itself.
pub(crate) fn constant_around(document: &Document, token: usize) -> Option<Span> {
    let own = document.span(token)?;
    if !is_part(document.kind(token)) {
        return None;
    }
    let is_number = matches!(document.kind(token), Some(TokenKind::Integer(_)));
    match (
        end_of(document, token, true),
        end_of(document, token, false),
    ) {
        (Some(first), Some(last)) => Some(Span {
            start: document.span(first)?.start,
            end: document.span(last)?.end,
        }),
        _ if is_number => Some(own),
        _ => None,
    }
}

/// What is told of the source of an expression of numbers alone; nothing where it says its value
/// itself.
pub(crate) fn value_told(source: &str, sort: Sort) -> Option<String> {
    match evaluate_source(source, sort) {
        Known::Number(value) if value.to_string() == source => None,
        Known::Number(value) => Some(format!("Value: `{value}`")),
        Known::Traps(_) => Some("It has no value: it traps.".to_owned()),
        Known::Nothing => None,
    }
}
