//! Words and names whose `_` is a blank or a hyphen.

use crate::slips::{At, is_integer, is_joined, is_symbol};
use edd_lexer::token::{Token, TokenKind};
use edd_source::Span;
use edd_source::tokens::word_of;
use edd_syntax::operators::Operator;
use edd_syntax::symbols::Symbol;

/// The most parts of a word, as GET_DEV_VAR_VALUE has them.
const MOST_PARTS: usize = 4;

/// The most tokens before another one with which such a word begins.
const MOST_BEFORE: usize = 6;

/// Words that stand for one.
pub(crate) struct Split {
    /// Where they are.
    pub(crate) span: Span,
    /// The one, with `_` between its parts.
    pub(crate) joined: String,
}

/// The words around a token that stand for one that is meant.
pub(crate) fn split_around(at: At<'_>, is_meant: impl Fn(&str) -> bool) -> Option<Split> {
    let first = at.number.saturating_sub(MOST_BEFORE);
    (first..=at.number).find_map(|start| longest_from(at, start, &is_meant))
}

// The longest word that the parts from a token on are, if it has the token.
fn longest_from(at: At<'_>, start: usize, is_meant: &impl Fn(&str) -> bool) -> Option<Split> {
    let first = at.tokens.get(start).filter(|token| is_word(token))?;
    let mut joined = word_of(at.text, first).to_owned();
    let mut last = start;
    let mut found = None;
    for _ in 1..MOST_PARTS {
        let Some((next, has_hyphen)) = part_behind(at, last) else {
            break;
        };
        let token = at.tokens.get(next)?;
        joined.push('_');
        joined.push_str(word_of(at.text, token));
        last = next;
        // A difference is read on, up to the token behind it.
        let behind = next.saturating_add(usize::from(has_hyphen));
        if at.number <= behind && is_meant(&joined) {
            found = Some(Split {
                span: Span::of(first).up_to(Span::of(token)),
                joined: joined.clone(),
            });
        }
    }
    found
}

// The part of a word behind the one at a token, on its line, and whether a hyphen is between them.
fn part_behind(at: At<'_>, number: usize) -> Option<(usize, bool)> {
    let part = at.tokens.get(number)?;
    let next = number.checked_add(1)?;
    let sign = at.tokens.get(next)?;
    if is_word(sign) || is_integer(sign) {
        return (sign.line == part.line).then_some((next, false));
    }
    let behind = next.checked_add(1)?;
    let other = at.tokens.get(behind)?;
    let is_hyphen = is_symbol(sign, Symbol::Operator(Operator::Subtract))
        && is_joined(part, sign)
        && is_joined(sign, other);
    (is_hyphen && (is_word(other) || is_integer(other))).then_some((behind, true))
}

fn is_word(token: &Token) -> bool {
    matches!(token.kind, TokenKind::Name | TokenKind::Keyword(_))
}
