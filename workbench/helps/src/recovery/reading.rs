//! Items that are read past their faults.

use super::alone::{Alone, Outcome};
use super::entries::Entries;
use super::sections::{Section, sections};
use crate::core::lex;
use crate::{Advice, Finding, Slip, TextFault};
use edd_lexer::token::{Token, TokenKind};
use edd_source::tokens::{is_word, item_kind};
use edd_source::{Outline, Span};
use edd_syntax::symbols::{Keyword, Symbol};
use edd_token_reader::fault::ParseFault;
use std::borrow::Cow;
use std::ops::Range;

/// How many faults of an item are told, so that many in a long one take no long time.
const MOST_IN_ITEM: usize = 20;

/// How often what a fault stands in is taken wider.
const MOST_WIDER: usize = 4;

/// What is said of a fault behind the first one.
#[derive(Debug)]
pub struct Later {
    /// The fault. Its places are those of the item alone.
    pub fault: TextFault,
    /// The line of the fault, counted from 1, where it has one.
    pub line: Option<u32>,
    /// Where it is shown, and what helps.
    pub finding: Finding,
}

/// What is known of a text behind its first fault.
#[derive(Debug)]
pub struct Recovered {
    /// The faults behind the first one, in order; not more than were asked for.
    pub later: Vec<Later>,
    /// How many more there are.
    pub more: usize,
    /// What is taken for blanks: with that the text may have no fault of its tokens or its grammar.
    pub broken: Vec<Span>,
    /// Whether whole items are among that, so that it is not known which names there are.
    pub has_lost: bool,
}

/// The items of a text as they are read.
struct Reader<'t> {
    text: &'t [u8],
    /// What is said of the first fault.
    first: &'t Finding,
    most: usize,
    found: Recovered,
}

/// Reads a text past its first fault, which is at a byte: what is said of at most so many others.
pub fn recover(text: &[u8], first: (&TextFault, &Finding), from: usize, most: usize) -> Recovered {
    let (first, finding) = first;
    let is_left_out = matches!(first, TextFault::Parse(ParseFault::Unsupported { .. }));
    // Where a text has no tokens, the items before its fault are not read so far.
    let is_lexical = matches!(first, TextFault::Lex(_));
    let sections = sections(text, if is_lexical { 0 } else { from }, is_left_out);
    let mut reader = Reader {
        text,
        first: finding,
        most,
        found: Recovered {
            later: Vec::new(),
            more: 0,
            broken: Vec::new(),
            has_lost: false,
        },
    };
    let end = sections
        .first()
        .map_or(text.len(), |section| section.span.start);
    if !is_lexical && let Some((start, line)) = item_before(text, from, end) {
        let item = Span { start, end };
        reader.read(Alone::of(text, item, line), Some(from), true);
    }
    for (number, section) in sections.iter().enumerate() {
        if is_lexical && section.span.range().contains(&from) {
            let alone = Alone::of(text, section.span, section.line);
            reader.read(alone, Some(from), true);
        } else {
            reader.read_section(section, sections.get(number.saturating_add(1)));
        }
    }
    reader.found
}

// Where the item begins in which a fault is, and its line: the last one that begins before it.
fn item_before(text: &[u8], from: usize, end: usize) -> Option<(usize, u32)> {
    let tokens = lex(text.get(..end)?).or_else(|_| lex(text.get(..from).unwrap_or_default()));
    let tokens = tokens.ok()?;
    let outline = Outline::of(&tokens);
    let begins = |number: &usize| {
        let token = tokens.get(*number);
        let is_behind_of = number
            .checked_sub(1)
            .is_some_and(|before| is_word(&tokens, before, Keyword::Of));
        token.is_some_and(|token| item_kind(token).is_some() && Span::of(token).start < from)
            && outline.opened(&tokens, *number).is_none()
            && !is_behind_of
    };
    let number = (0..tokens.len()).rev().find(begins)?;
    let token = tokens.get(number)?;
    Some((Span::of(token).start, token.line))
}

impl Reader<'_> {
    // Reads an item of which nothing is told so far.
    fn read_section(&mut self, section: &Section, next: Option<&Section>) {
        let alone = Alone::of(self.text, section.span, section.line);
        // The fault of a section whose braces are open is at the next item, so both are read.
        if section.is_open
            && let Some(next) = next
            && matches!(alone.read().fault, Some(TextFault::Parse(_)))
        {
            let wide = Span {
                end: next.span.end,
                ..section.span
            };
            let wide = Alone::of(self.text, wide, section.line);
            let outcome = wide.read();
            if matches!(outcome.fault, Some(TextFault::Parse(_))) {
                self.tell(&wide, outcome);
                self.found.has_lost = true;
                self.found.broken.push(section.span);
                return;
            }
        }
        self.read(alone, None, section.is_open);
    }

    // Reads a part of the text past its faults. `told` is where the first one is, if it was told.
    fn read(&mut self, mut alone: Alone, told: Option<usize>, may_be_open: bool) {
        let mut broken = None;
        for count in 0..MOST_IN_ITEM {
            let outcome = alone.read();
            let Some(place) = place_of(&alone, &outcome) else {
                return;
            };
            let told = told.filter(|_| count == 0);
            if told.is_some_and(|told| told != alone.outside(place).start) {
                // By itself the item is read in another way than in the whole text.
                return self.lose(&alone);
            }
            let Some(found) = region(&alone, &outcome, place, broken, may_be_open) else {
                if count == 0 && told.is_none() {
                    self.tell(&alone, outcome);
                }
                return self.lose(&alone);
            };
            if told.is_none() && !found.is_wider {
                self.tell(&alone, outcome);
            }
            self.found.broken.push(alone.outside(found.span));
            alone.blank(found.span);
            broken = Some(found.span);
        }
        self.lose(&alone);
    }

    // Takes all of a part for blanks.
    fn lose(&mut self, alone: &Alone) {
        self.found.has_lost = true;
        self.found.broken.push(alone.outside(alone.whole()));
    }

    // Whether a finding is the second half of the one before it, as `begin` and `end` are told once.
    fn is_told_with(&self, finding: &Finding) -> bool {
        let is_word = |finding: &Finding| {
            let mut helps = finding.helps.iter();
            helps.any(|help| help.advice == Advice::Slip(Slip::StatementsBetweenBraces))
        };
        let before = self.found.later.last().map(|later| &later.finding);
        is_word(finding) && is_word(before.unwrap_or(self.first))
    }

    // Tells a fault, or counts it.
    fn tell(&mut self, alone: &Alone, outcome: Outcome) {
        if self.most <= self.found.later.len() {
            self.found.more = self.found.more.saturating_add(1);
            return;
        }
        let line = alone.line(&outcome);
        if let Some(finding) = alone.explain(&outcome)
            && let Some(fault) = outcome.fault
            && !self.is_told_with(&finding)
        {
            self.found.later.push(Later {
                fault,
                line,
                finding,
            });
        }
    }
}

/// What a fault stands in.
struct Region {
    span: Span,
    /// Whether it is what an earlier one stands in, so that the fault only follows from that one.
    is_wider: bool,
}

// The place of a fault, where it has one.
fn place_of(alone: &Alone, outcome: &Outcome) -> Option<Span> {
    match outcome.fault.as_ref()? {
        TextFault::Lex(_) => Some(
            alone
                .lexical_place(outcome)
                .unwrap_or_else(|| alone.whole()),
        ),
        TextFault::Parse(fault) => {
            let number = usize::try_from(fault.place()?.0).unwrap_or(usize::MAX);
            let token = outcome.tokens.get(number).map(Span::of);
            Some(token.unwrap_or_else(|| Span::before(alone.whole().end)))
        }
    }
}

// What a fault stands in; none where that is not known, as where braces do not match.
fn region(
    alone: &Alone,
    outcome: &Outcome,
    place: Span,
    broken: Option<Span>,
    may_be_open: bool,
) -> Option<Region> {
    let tokens = match &outcome.fault {
        Some(TextFault::Lex(_)) => Cow::Owned(alone.tokens_without_faults()),
        _ => Cow::Borrowed(&outcome.tokens),
    };
    if may_be_open && !are_braces_even(&tokens) || tokens.is_empty() {
        return None;
    }
    let outline = Outline::of(&tokens);
    let number = tokens.partition_point(|token| Span::of(token).start < place.start);
    let entries = Entries::of(&tokens, &outline);
    let mut entry = entries.around(number)?;
    let follows = broken.filter(|broken| is_behind(&tokens, number, *broken));
    let mut count = 0;
    // What comes right behind blanks follows from them: then what is around both is broken.
    while follows.is_some_and(|broken| !holds(&tokens, &entry, broken)) {
        entry = entries.outside(&entry)?;
        count = usize::saturating_add(count, 1);
        if MOST_WIDER < count {
            return None;
        }
    }
    let first = tokens.get(entry.start).map(Span::of)?;
    let last = tokens.get(entry.end.checked_sub(1)?).map(Span::of)?;
    Some(Region {
        span: first.up_to(last),
        is_wider: follows.is_some(),
    })
}

// Whether no token is between blanks and a token.
fn is_behind(tokens: &[Token], number: usize, broken: Span) -> bool {
    let before = number.checked_sub(1).and_then(|before| tokens.get(before));
    before.is_none_or(|before| Span::of(before).end <= broken.start)
}

// Whether blanks lie within the tokens of an entry.
fn holds(tokens: &[Token], entry: &Range<usize>, broken: Span) -> bool {
    let first = tokens.get(entry.start).map(|token| Span::of(token).start);
    first.is_some_and(|first| first < broken.start)
}

fn are_braces_even(tokens: &[Token]) -> bool {
    let mut open: usize = 0;
    for token in tokens {
        match token.kind {
            TokenKind::Symbol(Symbol::OpenBrace) => open = open.saturating_add(1),
            TokenKind::Symbol(Symbol::CloseBrace) => match open.checked_sub(1) {
                Some(left) => open = left,
                None => return false,
            },
            _ => {}
        }
    }
    open == 0
}
