//! Warnings, and how they are gathered.

use crate::kind::Kind;
use crate::levels::{Level, Levels};
use crate::remarks::Remarks;
use crate::source::{Source, TokenIndex};
use edd_source::{Fix, Span};
use std::collections::HashSet;

/// What the language allows and almost certainly is a mistake.
#[derive(Clone, Debug, PartialEq, Eq)]
pub struct Warning {
    /// What it is about.
    pub kind: Kind,
    /// Where it is.
    pub span: Span,
    /// Whether the lint that finds it is denied.
    pub is_denied: bool,
    /// Further places that it speaks of.
    pub related: Vec<Related>,
    /// Changes that may mend it.
    pub fixes: Vec<Fix>,
}

/// A further place that a warning speaks of.
#[derive(Clone, Copy, Debug, PartialEq, Eq)]
pub struct Related {
    /// Where it is.
    pub span: Span,
    /// What is there.
    pub role: Role,
}

/// What is at a further place.
#[derive(Clone, Copy, Debug, PartialEq, Eq, Hash)]
pub enum Role {
    /// What the warning is in conflict with.
    Other,
}

/// A warning with the line of its span.
struct Finding {
    line: u32,
    warning: Warning,
}

/// The warnings so far.
pub(crate) struct Findings<'s> {
    pub(crate) source: Source<'s>,
    found: Vec<Finding>,
    // Where they begin.
    starts: HashSet<usize>,
    // The last place where one begins: most that is asked for lies behind it.
    furthest: usize,
}

impl<'s> Findings<'s> {
    pub(crate) fn new(source: Source<'s>) -> Findings<'s> {
        Findings {
            source,
            found: Vec::new(),
            starts: HashSet::new(),
            furthest: 0,
        }
    }

    /// What was found in parts, one behind the other.
    pub(crate) fn joined(source: Source<'s>, parts: Vec<Findings<'s>>) -> Findings<'s> {
        let mut all = Findings::new(source);
        for part in parts {
            all.found.extend(part.found);
            all.starts.extend(part.starts);
            all.furthest = all.furthest.max(part.furthest);
        }
        all
    }

    /// Adds a warning at a token.
    pub(crate) fn add(&mut self, at: TokenIndex, kind: impl Into<Kind>) {
        self.add_span(self.source.span(at), self.source.line(at), kind);
    }

    /// Adds a warning at a span that begins on a line.
    pub(crate) fn add_span(&mut self, span: Span, line: u32, kind: impl Into<Kind>) {
        let warning = Warning {
            kind: kind.into(),
            span,
            is_denied: false,
            related: Vec::new(),
            fixes: Vec::new(),
        };
        self.starts.insert(span.start);
        self.furthest = self.furthest.max(span.start);
        self.found.push(Finding { line, warning });
    }

    /// Whether there is a warning at a span.
    pub(crate) fn is_reported(&self, span: Span) -> bool {
        span.start <= self.furthest && self.starts.contains(&span.start)
    }

    /// Adds a warning at a token that is in conflict with another one.
    pub(crate) fn add_beside(&mut self, at: TokenIndex, kind: impl Into<Kind>, other: TokenIndex) {
        let span = self.source.span(other);
        self.add(at, kind);
        if let Some(last) = self.found.last_mut() {
            let role = Role::Other;
            last.warning.related.push(Related { span, role });
        }
    }

    /// Adds a warning at a token, and what may mend it.
    pub(crate) fn add_fixed(&mut self, at: TokenIndex, kind: impl Into<Kind>, fix: Fix) {
        self.add_span_fixed(self.source.span(at), self.source.line(at), kind, fix);
    }

    /// Adds a warning at a span that begins on a line, and what may mend it.
    pub(crate) fn add_span_fixed(
        &mut self,
        span: Span,
        line: u32,
        kind: impl Into<Kind>,
        fix: Fix,
    ) {
        self.add_span(span, line, kind);
        if let Some(last) = self.found.last_mut() {
            last.warning.fixes.push(fix);
        }
    }

    /// The warnings that levels and remarks do not allow, by their lines, and on one line in the
    /// order of the lints.
    pub(crate) fn into_warnings(self, levels: &Levels, remarks: &Remarks) -> Vec<Warning> {
        let mut kept: Vec<_> = self.found.into_iter().collect();
        kept.sort_by_key(|finding| (finding.line, finding.warning.kind.lint()));
        let shown = kept.into_iter().filter_map(|finding| {
            let Finding { line, mut warning } = finding;
            let lint = warning.kind.lint();
            let level = levels.level(lint);
            warning.is_denied = level == Level::Deny;
            (level != Level::Allow && !remarks.allow(lint, line)).then_some(warning)
        });
        shown.collect()
    }
}
