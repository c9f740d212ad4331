//! Changes of the token that does not fit.

use crate::core::lex;
use edd_lexer::token::Token;
use std::ops::Range;

/// What is done with a token.
#[derive(Clone, Copy, Debug)]
pub(super) enum Change {
    /// The sign is put before the token, right after the one before it.
    Behind(&'static str),
    /// The sign is put before the token.
    Before(&'static str),
    /// Something that is no sign is put before the token: its spelling, and what it is called.
    Missing(&'static str, &'static str),
    /// Another word or sign stands in its place.
    Instead(&'static str),
    LeaveOut,
    /// The token is a text.
    Quoted,
    /// The token is a name.
    Renamed,
}

impl Change {
    // What is put before the token, and what in its place, where that changes.
    fn spellings(self) -> (&'static str, Option<&'static str>) {
        match self {
            Change::Behind(sign) | Change::Before(sign) => (sign, None),
            Change::Missing(spelling, _) => (spelling, None),
            Change::Instead(word) => ("", Some(word)),
            Change::LeaveOut => ("", Some("")),
            Change::Quoted => ("", Some("\"\"")),
            Change::Renamed => ("", Some("x")),
        }
    }
}

/// The tokens of a text from its first fault's item on, in which a token can be changed.
///
/// What is put in stands behind the text, so that the text itself is never copied again.
pub(super) struct Workshop {
    text: Vec<u8>,
    length: usize,
    /// The tokens of the identification and from the item on.
    tokens: Vec<Token>,
    /// How many tokens of the text are passed between these.
    passed: usize,
    /// The number of the first token behind those that are passed.
    resumes: usize,
}

impl Workshop {
    /// The tokens of a text without the items from one token up to another.
    pub(super) fn without(text: &[u8], tokens: &[Token], from: usize, to: usize) -> Workshop {
        let head = tokens.get(..from).unwrap_or_default();
        let rest = tokens.get(to..).unwrap_or_default();
        Workshop {
            text: text.to_vec(),
            length: text.len(),
            tokens: [head, rest].concat(),
            passed: to.saturating_sub(from),
            resumes: to,
        }
    }

    /// The token of the text at which the grammar refuses it with a change of a token; past all where
    /// it is read. What the change adds counts as the changed token.
    pub(super) fn reached(&mut self, number: usize, change: Change) -> usize {
        let (before, instead) = change.spellings();
        let own = self.inside(number);
        let put_before = self.put(before);
        let put_instead = instead.map(|word| self.put(word));
        let kept = self.tokens.get(own).copied().into_iter().collect();
        let middle = [put_before, put_instead.unwrap_or(kept)].concat();
        let head = self.tokens.get(..own).unwrap_or(&self.tokens);
        let rest = self.tokens.get(own.saturating_add(1)..).unwrap_or_default();
        let changed = [head, &middle, rest].concat();
        let refused = crate::core::refused_at(&self.text, &changed);
        self.text.truncate(self.length);
        match refused {
            None => usize::MAX,
            Some(place) => self.outside(original(place, own, middle.len())),
        }
    }

    /// The token of the text at which the grammar refuses it without some tokens; past all where it is read.
    pub(super) fn reached_without(&mut self, left_out: Range<usize>) -> usize {
        let (start, end) = (self.inside(left_out.start), self.inside(left_out.end));
        let head = self.tokens.get(..start).unwrap_or(&self.tokens);
        let rest = self.tokens.get(end..).unwrap_or_default();
        match crate::core::refused_at(&self.text, &[head, rest].concat()) {
            None => usize::MAX,
            Some(place) if place < start => self.outside(place),
            Some(place) => self.outside(place.saturating_add(left_out.len())),
        }
    }

    // Appends a spelling to the text, and returns its tokens.
    fn put(&mut self, spelling: &str) -> Vec<Token> {
        self.text.push(b' ');
        let start = u32::try_from(self.text.len()).unwrap_or(u32::MAX);
        self.text.extend_from_slice(spelling.as_bytes());
        let mut tokens = lex(spelling.as_bytes()).unwrap_or_default();
        for token in &mut tokens {
            token.start = token.start.saturating_add(start);
            token.end = token.end.saturating_add(start);
        }
        tokens
    }

    // The number among the tokens here of a token of the text.
    fn inside(&self, number: usize) -> usize {
        if number < self.resumes {
            return number;
        }
        number.saturating_sub(self.passed)
    }

    // The number in the text of a token here.
    fn outside(&self, number: usize) -> usize {
        if number < self.resumes.saturating_sub(self.passed) {
            return number;
        }
        number.saturating_add(self.passed)
    }
}

// The number before a change of the token that has a number after it, where so many tokens stand in
// the place of the changed one.
fn original(number: usize, changed: usize, count: usize) -> usize {
    let behind = number.saturating_sub(changed);
    if number <= changed || behind < count {
        return number.min(changed);
    }
    changed
        .saturating_add(behind)
        .saturating_sub(count)
        .saturating_add(1)
}
