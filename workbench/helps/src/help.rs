//! A fault at its place, with what helps.

use crate::{Advice, SyntaxHelp};
use edd_source::{Confidence, Fix, Span};

/// What helps, and the other place that it speaks of, where there is one.
#[derive(Clone, Debug, PartialEq, Eq)]
pub struct Help {
    /// The second place.
    pub span: Option<Span>,
    /// What is said.
    pub advice: Advice,
    /// The change that is said, where it is one.
    pub fix: Option<Fix>,
}

/// Where a fault is shown, and what helps.
#[derive(Clone, Debug, Default, PartialEq, Eq)]
pub struct Finding {
    /// Nothing where no token stands for it.
    pub span: Option<Span>,
    /// What helps, the most likely first.
    pub helps: Vec<Help>,
}

impl Finding {
    /// A fault at a place, of which nothing is said so far.
    pub fn at(span: Option<Span>) -> Finding {
        Finding {
            span,
            helps: Vec::new(),
        }
    }

    /// Adds what helps.
    pub fn say(&mut self, advice: impl Into<Advice>) {
        self.help(None, advice.into(), None);
    }

    /// Adds what is said of a second place.
    pub fn say_at(&mut self, span: Option<Span>, advice: impl Into<Advice>) {
        self.help(span, advice.into(), None);
    }

    /// Adds what helps, with the change that it is.
    pub fn propose(&mut self, advice: impl Into<Advice>, fix: Option<Fix>) {
        self.help(None, advice.into(), fix);
    }

    /// Adds what is said of a second place, with the change that it is.
    pub(crate) fn propose_at(
        &mut self,
        span: Option<Span>,
        advice: impl Into<Advice>,
        fix: Option<Fix>,
    ) {
        self.help(span, advice.into(), fix);
    }

    fn help(&mut self, span: Option<Span>, advice: Advice, fix: Option<Fix>) {
        self.helps.push(Help { span, advice, fix });
    }

    /// Adds that a sign is missing where the fault is shown, which is so sure.
    pub(crate) fn say_missing_here(&mut self, sign: &'static str, confidence: Confidence) {
        let here = self.span.map(|span| Span::before(span.start));
        let fix = here.map(|here| Fix::replace(here, sign, confidence));
        self.propose(SyntaxHelp::MissingHere { sign }, fix);
    }

    /// Adds that what is at the place of the fault may be another word or sign.
    pub(crate) fn replacement(&self, text: &str, confidence: Confidence) -> Option<Fix> {
        Some(Fix::replace(self.span?, text, confidence))
    }

    /// Has all places be so many bytes further on, from some on.
    pub fn moved(mut self, before: usize, start: usize) -> Finding {
        let moved = |span: Span| Span {
            start: span.start.saturating_sub(before).saturating_add(start),
            end: span.end.saturating_sub(before).saturating_add(start),
        };
        self.span = self.span.map(moved);
        for help in &mut self.helps {
            help.span = help.span.map(moved);
            for edit in help.fix.iter_mut().flat_map(|fix| &mut fix.edits) {
                edit.span = moved(edit.span);
            }
        }
        self
    }
}
