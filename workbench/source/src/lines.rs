//! Lines and columns of a text.

use crate::marks::Marks;
use crate::{Origin, Span};
use std::io::BufRead;

/// The longest line of a source that is shown, in bytes.
const LONGEST: usize = 400;

/// A place as it is printed.
#[derive(Clone, Copy, Debug)]
pub struct Place<'a> {
    /// The line, counted from 1.
    pub line: usize,
    /// The column, counted from 1 in characters.
    pub column: usize,
    /// The line's text. Nothing of one that is long or no text, or has a character of the number 0.
    pub text: &'a str,
    /// How many bytes of the line are before the column.
    pub before: usize,
    /// Where the line is from, as a preprocessor has marked it.
    pub origin: Option<Origin<'a>>,
}

/// A text and where its lines begin.
#[derive(Clone, Debug)]
pub struct Lines<'a> {
    text: &'a [u8],
    starts: Vec<usize>,
    marks: Marks<'a>,
}

impl<'a> Lines<'a> {
    /// The lines of a text.
    pub fn of(text: &'a [u8]) -> Lines<'a> {
        let mut starts = vec![0];
        let (mut start, mut rest) = (0_usize, text);
        // Reading from bytes does not fail.
        while let Ok(length) = rest.skip_until(b'\n') {
            start = start.saturating_add(length);
            let is_ended =
                0 < length && text.get(..start).is_some_and(|line| line.ends_with(b"\n"));
            if !is_ended {
                break;
            }
            starts.push(start);
        }
        let marks = Marks::of(text, &starts);
        Lines {
            text,
            starts,
            marks,
        }
    }

    /// The bytes of the text.
    pub fn text(&self) -> &'a [u8] {
        self.text
    }

    // The line that a byte is on, counted from 0.
    fn line_of(&self, byte: usize) -> usize {
        self.starts
            .partition_point(|start| *start <= byte)
            .saturating_sub(1)
    }

    /// How many characters a place has on its first line.
    pub fn width(&self, place: Span) -> usize {
        let whole = span_of_line(self.text, &self.starts, self.line_of(place.start));
        let bytes = self.text.get(place.start..place.end.min(whole.end));
        let begins_character = |byte: &&u8| **byte & 0xc0 != 0x80;
        bytes
            .unwrap_or_default()
            .iter()
            .filter(begins_character)
            .count()
    }

    /// The place of a byte.
    pub fn place(&self, byte: usize) -> Place<'a> {
        let byte = byte.min(self.text.len());
        let line = self.line_of(byte);
        let whole = span_of_line(self.text, &self.starts, line);
        let before = Span { end: byte, ..whole }.read(self.text);
        Place {
            line: line.saturating_add(1),
            column: before.chars().count().saturating_add(1),
            text: shown(self.text, whole),
            before: before.len(),
            origin: self.marks.origin(line),
        }
    }
}

/// Where the line that is counted from 0 is, without its LF, by the places where lines begin.
pub(crate) fn span_of_line(text: &[u8], starts: &[usize], line: usize) -> Span {
    let next = starts.get(line.saturating_add(1));
    Span {
        start: starts.get(line).copied().unwrap_or(0),
        end: next.map_or(text.len(), |next| next.saturating_sub(1)),
    }
}

// A line that is short enough to be shown, without the end of a line of another system.
fn shown(text: &[u8], place: Span) -> &str {
    let line = place.read(text);
    if LONGEST < place.len() || line.contains('\0') {
        return "";
    }
    line.strip_suffix('\r').unwrap_or(line)
}
