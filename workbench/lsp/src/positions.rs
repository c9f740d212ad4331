//! Places in a text as lines and columns.

use edd_source::Span;
use serde::{Deserialize, Serialize};

/// How many bytes lie between two places of which it is kept how many UTF-16 units come before.
const STEP: usize = 256;

/// In which units columns are counted.
#[derive(Clone, Copy, Debug, Default, PartialEq, Eq)]
pub enum Encoding {
    /// Bytes.
    Utf8,
    /// Units of 16 bits: two for a character beyond the first 65,536.
    #[default]
    Utf16,
}

/// A line and a column, both from 0.
#[derive(Clone, Copy, Debug, PartialEq, Eq, PartialOrd, Ord, Serialize, Deserialize)]
pub struct Position {
    /// The line.
    pub line: usize,
    /// The column.
    pub character: usize,
}

/// From a position up to another.
#[derive(Clone, Copy, Debug, PartialEq, Eq, Serialize, Deserialize)]
pub struct Range {
    /// Where it begins.
    pub start: Position,
    /// What is behind its end.
    pub end: Position,
}

/// Where the lines of a text begin, which LF, CR LF and CR end.
#[derive(Debug)]
pub(crate) struct Lines {
    starts: Vec<usize>,
    /// How many UTF-16 units come before each byte whose number is a multiple of `STEP`, and last how
    /// many there are. A text of ASCII has none: there bytes are units.
    units: Option<Vec<usize>>,
}

/// How many UTF-16 units a byte of a text stands for: those of the character that it begins.
fn units_of(byte: u8) -> usize {
    match byte {
        0x80..=0xbf => 0,
        0xf0..=0xff => 2,
        _ => 1,
    }
}

fn units_in(bytes: &[u8]) -> usize {
    bytes.iter().map(|byte| units_of(*byte)).sum()
}

fn line_starts(text: &str) -> Vec<usize> {
    let mut starts = vec![0];
    if !text.contains('\r') {
        let ends = text.match_indices('\n');
        starts.extend(ends.map(|(end, _)| end.saturating_add(1)));
        return starts;
    }
    let mut before = 0;
    for (index, byte) in text.bytes().enumerate() {
        if before == b'\r' && byte != b'\n' {
            starts.push(index);
        }
        if byte == b'\n' {
            starts.push(index.saturating_add(1));
        }
        before = byte;
    }
    if before == b'\r' {
        starts.push(text.len());
    }
    starts
}

fn unit_steps(text: &str) -> Vec<usize> {
    let mut steps = vec![0];
    let mut units: usize = 0;
    for bytes in text.as_bytes().chunks(STEP) {
        units = units.saturating_add(units_in(bytes));
        steps.push(units);
    }
    steps
}

/// The last number of a list in order that is not above another, and 0 where there is none.
fn last_up_to(list: &[usize], most: usize) -> usize {
    list.partition_point(|number| *number <= most)
        .saturating_sub(1)
}

/// The greatest place of a character that is not beyond a byte.
fn floor(text: &str, byte: usize) -> usize {
    let byte = byte.min(text.len());
    let places = (0..=byte).rev();
    places
        .into_iter()
        .find(|place| text.is_char_boundary(*place))
        .unwrap_or(0)
}

impl Lines {
    pub(crate) fn of(text: &str) -> Lines {
        Lines {
            starts: line_starts(text),
            units: (!text.is_ascii()).then(|| unit_steps(text)),
        }
    }

    /// How many UTF-16 units come before a byte.
    fn units_before(&self, text: &str, byte: usize) -> usize {
        let Some(steps) = &self.units else {
            return byte;
        };
        let step = byte / STEP;
        let start = step.saturating_mul(STEP);
        let bytes = text.as_bytes().get(start..byte).unwrap_or_default();
        let before = steps.get(step).copied().unwrap_or(0);
        before.saturating_add(units_in(bytes))
    }

    /// The last character that no more UTF-16 units come before than these.
    fn byte_behind(&self, text: &str, most: usize) -> usize {
        let Some(steps) = &self.units else {
            return most.min(text.len());
        };
        let step = last_up_to(steps, most);
        let start = step.saturating_mul(STEP);
        let mut units = steps.get(step).copied().unwrap_or(0);
        for (index, byte) in text.bytes().enumerate().skip(start) {
            units = units.saturating_add(units_of(byte));
            if most < units {
                return index;
            }
        }
        text.len()
    }

    /// Where a line ends, before what ends it.
    fn line_end(&self, text: &str, line: usize) -> usize {
        let Some(next) = self.starts.get(line.saturating_add(1)) else {
            return text.len();
        };
        let start = self.starts.get(line).copied().unwrap_or(0);
        let written = text.as_bytes().get(start..*next).unwrap_or_default();
        let ending = match written {
            [.., b'\r', b'\n'] => 2,
            [.., b'\r' | b'\n'] => 1,
            _ => 0,
        };
        next.saturating_sub(ending)
    }

    /// The byte of a position: of one beyond its line the line's end, and of a line beyond the last
    /// the end of the text. A column within a character is before it.
    pub(crate) fn byte(&self, text: &str, at: Position, encoding: Encoding) -> usize {
        let Some(start) = self.starts.get(at.line) else {
            return text.len();
        };
        let byte = match encoding {
            Encoding::Utf8 => floor(text, start.saturating_add(at.character)),
            Encoding::Utf16 => {
                let before = self.units_before(text, *start);
                self.byte_behind(text, before.saturating_add(at.character))
            }
        };
        byte.min(self.line_end(text, at.line))
    }

    /// The position of a byte; of one within a character that of the character, and of one within
    /// what ends a line the line's end.
    pub(crate) fn position(&self, text: &str, byte: usize, encoding: Encoding) -> Position {
        let byte = floor(text, byte);
        let line = last_up_to(&self.starts, byte);
        let start = self.starts.get(line).copied().unwrap_or(0);
        let byte = byte.min(self.line_end(text, line));
        let character = match encoding {
            Encoding::Utf8 => byte.saturating_sub(start),
            Encoding::Utf16 => {
                let before = self.units_before(text, start);
                self.units_before(text, byte).saturating_sub(before)
            }
        };
        Position { line, character }
    }

    pub(crate) fn range(&self, text: &str, span: Span, encoding: Encoding) -> Range {
        Range {
            start: self.position(text, span.start, encoding),
            end: self.position(text, span.end, encoding),
        }
    }
}

#[cfg(test)]
mod tests {
    use super::*;

    const TEXT: &str = "a\r\n\u{e4}\u{1d11e}b\rc\n";

    fn at(line: usize, character: usize) -> Position {
        Position { line, character }
    }

    #[test]
    fn columns_are_counted_in_their_units() {
        let lines = Lines::of(TEXT);
        // Line 1 begins at byte 3: two bytes, then four, then one.
        let places = [
            (3, at(1, 0), at(1, 0)),
            (5, at(1, 2), at(1, 1)),
            (9, at(1, 6), at(1, 3)),
            (10, at(1, 7), at(1, 4)),
            (11, at(2, 0), at(2, 0)),
            (13, at(3, 0), at(3, 0)),
        ];
        for (byte, bytes, units) in places {
            assert_eq!(lines.position(TEXT, byte, Encoding::Utf8), bytes);
            assert_eq!(lines.position(TEXT, byte, Encoding::Utf16), units);
            assert_eq!(lines.byte(TEXT, bytes, Encoding::Utf8), byte);
            assert_eq!(lines.byte(TEXT, units, Encoding::Utf16), byte);
        }
    }

    #[test]
    fn places_beyond_lines_and_within_characters_are_before() {
        let lines = Lines::of(TEXT);
        assert_eq!(lines.byte(TEXT, at(0, 9), Encoding::Utf16), 1);
        assert_eq!(lines.byte(TEXT, at(1, 2), Encoding::Utf16), 5);
        assert_eq!(lines.byte(TEXT, at(1, 4), Encoding::Utf8), 5);
        assert_eq!(lines.byte(TEXT, at(9, 0), Encoding::Utf8), TEXT.len());
        assert_eq!(lines.position(TEXT, 2, Encoding::Utf8), at(0, 1));
    }

    #[test]
    fn a_long_text_is_counted_by_steps() {
        let text = ["x".repeat(300), "\u{1d11e}".repeat(300)].concat();
        let lines = Lines::of(&text);
        for (byte, units) in [(0, 0), (256, 256), (300, 300), (304, 302), (1500, 900)] {
            assert_eq!(lines.position(&text, byte, Encoding::Utf16), at(0, units));
            assert_eq!(lines.byte(&text, at(0, units), Encoding::Utf16), byte);
        }
    }
}
