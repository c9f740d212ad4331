//! The lines of a file of tests, as they are read once what is refused is left out.

use edd_cases::{Misread, TestFault};
use edd_source::Span;
use std::borrow::Cow;

/// What stands for a line that is refused.
const NOTHING: &str = "#\n";

/// The lines that are read, of which some are not those of the file.
pub(crate) struct Pieces<'t> {
    lines: Vec<Piece<'t>>,
    length: usize,
}

struct Piece<'t> {
    text: Cow<'t, str>,
    /// The line of the file that it is, or for which it stands.
    span: Option<Span>,
}

impl<'t> Pieces<'t> {
    pub(crate) fn of(text: &'t str) -> Pieces<'t> {
        let mut start: usize = 0;
        let lines = text.split_inclusive('\n').map(|line| {
            let end = start.saturating_add(line.len());
            let span = Span { start, end };
            start = end;
            Piece {
                text: Cow::Borrowed(line),
                span: Some(span),
            }
        });
        Pieces {
            lines: lines.collect(),
            length: text.len(),
        }
    }

    pub(crate) fn joined(&self) -> String {
        self.lines.iter().map(|piece| piece.text.as_ref()).collect()
    }

    /// Whether a line, counted from 1, is none of the file.
    pub(crate) fn is_added(&self, number: usize) -> bool {
        let piece = self.lines.get(number.saturating_sub(1));
        piece.is_some_and(|piece| piece.span.is_none())
    }

    /// The place of a line, counted from 1; of no width where the file doesn't have it.
    pub(crate) fn span(&self, number: usize) -> Span {
        let index = number.saturating_sub(1);
        let piece = self.lines.get(index);
        let span = piece.and_then(|piece| piece.span);
        let before = self.lines.get(..index).unwrap_or_default();
        span.unwrap_or_else(|| {
            let end = before.iter().rev().find_map(|piece| piece.span);
            Span::before(end.map_or(self.length, |span| span.end))
        })
    }

    /// Leaves out a line that is refused, or adds the one that is missing.
    pub(crate) fn mend(&mut self, misread: Misread) {
        let index = misread.line.saturating_sub(1);
        match misread.fault {
            TestFault::NothingToRun => self.insert_behind(index, "open\n"),
            TestFault::NoSource => self.insert_behind(index, "source ?\n"),
            TestFault::NoTests => {
                let last = self.lines.len();
                self.insert_behind(last.saturating_sub(1), "test ?\n");
            }
            _ => self.leave_out(index),
        }
    }

    fn insert_behind(&mut self, index: usize, text: &'static str) {
        if let Some(before) = self.lines.get_mut(index)
            && !before.text.ends_with('\n')
        {
            before.text.to_mut().push('\n');
        }
        let place = index.saturating_add(1).min(self.lines.len());
        let text = Cow::Borrowed(text);
        self.lines.insert(place, Piece { text, span: None });
    }

    fn leave_out(&mut self, index: usize) {
        if let Some(piece) = self.lines.get_mut(index) {
            piece.text = Cow::Borrowed(NOTHING);
        }
    }
}
