//! A line that stands twice, one right below the other.

use super::SyntaxHelp;
use super::change::Workshop;
use crate::Finding;
use crate::slips::At;
use edd_lexer::token::Token;
use edd_source::tokens::{item_kind, tokens_before, word_of};
use edd_source::{Confidence, Fix, Span};
use std::ops::Range;

/// How many lines that stand twice are tried in an item.
const MOST: usize = 8;

/// How many tokens a line has at least: a brace or a word is often there again.
const SHORTEST: usize = 2;

/// Says that a line stands twice, if the text leads past the token that does not fit without the second
/// one. Returns whether it is so.
pub(super) fn say_line_twice(
    at: At<'_>,
    workshop: impl FnOnce() -> Workshop,
    finding: &mut Finding,
) -> bool {
    let mut twice = lines_twice(at).take(MOST).peekable();
    if twice.peek().is_none() {
        return false;
    }
    let mut workshop = workshop();
    let wrong = twice.find(|line| at.number < workshop.reached_without(line.clone()));
    let Some((before, line)) = wrong.and_then(|line| places_of(at, line)) else {
        return false;
    };
    finding.span = Some(line);
    let fix = Fix::replace(
        Span {
            start: before.end,
            end: line.end,
        },
        "",
        Confidence::Guess,
    );
    finding.propose(SyntaxHelp::LineTwice, Some(fix));
    true
}

// The token before a line, and the line.
fn places_of(at: At<'_>, line: Range<usize>) -> Option<(Span, Span)> {
    let before = at.tokens.get(line.start.checked_sub(1)?)?;
    let first = at.tokens.get(line.start)?;
    let last = at.tokens.get(line.end.checked_sub(1)?)?;
    Some((Span::of(before), Span::of(first).up_to(Span::of(last))))
}

// The tokens of the lines that are the same as those above them, from the last item before the token that
// does not fit up to this one.
fn lines_twice(at: At<'_>) -> impl Iterator<Item = Range<usize>> {
    let before = at.tokens.get(..at.number).unwrap_or(at.tokens);
    let item = before.iter().rfind(|token| item_kind(token).is_some());
    let from = item.map_or(0, |item| tokens_before(at.tokens, item.line));
    let ahead = at
        .tokens
        .get(at.number)
        .map_or(u32::MAX, |token| token.line);
    let part = at.tokens.get(from..).unwrap_or_default();
    let lines = part
        .chunk_by(|one, other| one.line == other.line)
        .take_while(move |line| line.first().is_some_and(|token| token.line <= ahead));
    let mut begun = from;
    let mut above: &[Token] = &[];
    lines.filter_map(move |line| {
        let range = begun..begun.saturating_add(line.len());
        begun = range.end;
        let is_twice = is_below(above, line) && are_same(at.text, above, line);
        above = line;
        is_twice.then_some(range)
    })
}

fn is_below(above: &[Token], line: &[Token]) -> bool {
    match (above.last(), line.first()) {
        (Some(above), Some(line)) => above.line.saturating_add(1) == line.line,
        _ => false,
    }
}

fn are_same(text: &[u8], above: &[Token], line: &[Token]) -> bool {
    let words = |tokens: &[Token]| -> Vec<&str> {
        tokens.iter().map(|token| word_of(text, token)).collect()
    };
    SHORTEST <= line.len() && above.len() == line.len() && words(above) == words(line)
}
