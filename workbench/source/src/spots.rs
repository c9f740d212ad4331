//! Where a span is shown: in the text, or in the file that a preprocessor has made it from.

use crate::alignment::align;
use crate::{Lines, Originals, Span};

/// A source: its name, its text by lines, and the files that it was made from.
#[derive(Clone, Debug)]
pub struct Source<'a> {
    /// The name, as it was given.
    pub name: &'a str,
    /// The lines of the text.
    pub lines: Lines<'a>,
    /// The files that a preprocessor made it from, as far as they were read.
    pub originals: Originals,
}

/// Where something is, as a reader is told.
#[derive(Clone, Copy, Debug)]
pub struct Spot<'a> {
    /// The file.
    pub file: &'a str,
    /// The line, counted from 1.
    pub line: usize,
    /// The column, counted from 1 in characters.
    pub column: usize,
    /// The line's text. Nothing of one that is long or no text.
    pub text: &'a str,
    /// The part of that line before the place.
    pub before: &'a str,
    /// How many characters the place has on this line.
    pub width: usize,
    /// Whether the line is that of the file from which the text was made.
    pub is_original: bool,
    /// What a preprocessor has made of what stands there, where it is something else.
    pub made: Option<&'a str>,
}

impl<'a> Source<'a> {
    /// A source of this name, of which no other file was read so far.
    pub fn new(name: &'a str, text: &'a [u8]) -> Source<'a> {
        Source {
            name,
            lines: Lines::of(text),
            originals: Originals::default(),
        }
    }

    /// Where a span of the text is shown.
    pub fn spot(&self, span: Span) -> Spot<'_> {
        let at = self.lines.place(span.start);
        let spot = Spot {
            file: self.name,
            line: at.line,
            column: at.column,
            text: at.text,
            before: at.text.get(..at.before).unwrap_or_default(),
            width: self.lines.width(span),
            is_original: false,
            made: None,
        };
        let Some(origin) = at.origin else {
            return spot;
        };
        let spot = Spot {
            file: origin.file.unwrap_or(self.name),
            line: origin.line,
            ..spot
        };
        match self.originals.line(origin) {
            Some(line) if !at.text.is_empty() => spot.in_original(line, span.len()),
            _ => spot,
        }
    }

    /// The file that a mark names for a place.
    pub fn marked_file(&self, span: Span) -> Option<&'a str> {
        self.lines.place(span.start).origin?.file
    }
}

impl<'a> Spot<'a> {
    // The same place in the line of the file that it was made from.
    fn in_original(self, line: &'a str, length: usize) -> Spot<'a> {
        let start = self.before.len();
        let part = Span {
            start,
            end: start.saturating_add(length).min(self.text.len()),
        };
        let found = align(line, self.text, part);
        let before = line.get(..found.place.start).unwrap_or_default();
        let word = part.read(self.text.as_bytes());
        let is_made = !found.is_same && !word.is_empty();
        Spot {
            column: before.chars().count().saturating_add(1),
            text: line,
            before,
            width: found.place.read(line.as_bytes()).chars().count(),
            is_original: true,
            made: is_made.then_some(word),
            ..self
        }
    }
}
