//! A part of a text that is read by itself, after an identification.

use crate::core::{lex, parse_fault};
use crate::{Finding, TextFault, explain};
use edd_lexer::line_of;
use edd_lexer::token::Token;
use edd_source::Span;

/// What is put before an item that is read by itself.
const HEAD: &[u8] = b"MANUFACTURER 1, DEVICE_TYPE 2, DEVICE_REVISION 3, DD_REVISION 4 ";

/// How many faults of its tokens are taken for blanks at once.
const MOST_FAULTS: usize = 8;

/// A part of a text after an identification, some of which may be taken for blanks.
pub(super) struct Alone {
    text: Vec<u8>,
    /// How many bytes here are before the part.
    before: usize,
    /// Where the part begins in the whole text.
    start: usize,
    /// How many lines of the whole text are before those here.
    lines: u32,
}

/// How a part of a text is read.
pub(super) struct Outcome {
    pub(super) tokens: Vec<Token>,
    pub(super) fault: Option<TextFault>,
}

impl Alone {
    /// The part of a text that begins on a line, counted from 1.
    pub(super) fn of(text: &[u8], span: Span, line: u32) -> Alone {
        let mut alone = HEAD.to_vec();
        // The part's first line has no other tokens before its own.
        if 1 < line {
            alone.push(b'\n');
        }
        let before = alone.len();
        alone.extend_from_slice(text.get(span.range()).unwrap_or_default());
        Alone {
            text: alone,
            before,
            start: span.start,
            lines: line.saturating_sub(2),
        }
    }

    /// Its tokens, and its first fault.
    pub(super) fn read(&self) -> Outcome {
        match lex(&self.text) {
            Err(fault) => Outcome {
                tokens: Vec::new(),
                fault: Some(TextFault::Lex(fault)),
            },
            Ok(tokens) => {
                let fault = parse_fault(&self.text, &tokens).map(TextFault::Parse);
                Outcome { tokens, fault }
            }
        }
    }

    /// Its tokens where the faults that it has of these are taken for blanks, if they are few.
    pub(super) fn tokens_without_faults(&self) -> Vec<Token> {
        let mut rest = Alone {
            text: self.text.clone(),
            ..*self
        };
        for _ in 0..MOST_FAULTS {
            let outcome = rest.read();
            match rest.lexical_place(&outcome) {
                Some(place) => rest.blank(place),
                None => return outcome.tokens,
            }
        }
        Vec::new()
    }

    /// Takes bytes for blanks.
    pub(super) fn blank(&mut self, span: Span) {
        let bytes = self.text.get_mut(span.range()).unwrap_or_default();
        for byte in bytes.iter_mut().filter(|byte| **byte != b'\n') {
            *byte = b' ';
        }
    }

    /// The bytes of the part that is read.
    pub(super) fn whole(&self) -> Span {
        Span {
            start: self.before,
            end: self.text.len(),
        }
    }

    /// A span here by the bytes of the whole text.
    pub(super) fn outside(&self, span: Span) -> Span {
        let moved = |place: usize| place.saturating_sub(self.before).saturating_add(self.start);
        Span {
            start: moved(span.start),
            end: moved(span.end),
        }
    }

    /// The line of a fault in the whole text, counted from 1, where it has one.
    pub(super) fn line(&self, outcome: &Outcome) -> Option<u32> {
        let line = match outcome.fault.as_ref()? {
            TextFault::Lex(fault) => fault.line()?,
            TextFault::Parse(fault) => line_of(&self.text, &outcome.tokens, fault.place()?),
        };
        Some(line.saturating_add(self.lines))
    }

    /// What is said of a fault, by the places of the whole text.
    pub(super) fn explain(&self, outcome: &Outcome) -> Option<Finding> {
        let fault = outcome.fault.as_ref()?;
        let explained = explain(&self.text, &outcome.tokens, fault);
        Some(explained.finding.moved(self.before, self.start))
    }

    /// Where a fault of the tokens is, if the text may be read again behind it.
    pub(super) fn lexical_place(&self, outcome: &Outcome) -> Option<Span> {
        let fault = outcome.fault.as_ref()?;
        if !matches!(fault, TextFault::Lex(_)) {
            return None;
        }
        let explained = explain(&self.text, &outcome.tokens, fault);
        explained.resumes_at?;
        explained.finding.span
    }
}
