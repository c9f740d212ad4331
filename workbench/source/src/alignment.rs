//! Where a part of a line is in the line from which a preprocessor has made it.
//!
//! What stands before the part, and what stands behind it, is looked for in the line, blanks not
//! counted. Where neither is found, a macro of the line has become what holds the part.

use crate::Span;

/// A part of a line as it was written.
#[derive(Clone, Copy)]
pub(crate) struct Aligned {
    pub(crate) place: Span,
    /// Whether the same stands there as in the line that was made.
    pub(crate) is_same: bool,
}

/// How far two lines are alike: as far as all of the second one, or up to a place where they differ.
type Reach = Result<usize, usize>;

fn is_blank(byte: u8) -> bool {
    byte == b' ' || byte == b'\t' || byte == b'\r'
}

fn is_of_word(byte: u8) -> bool {
    byte.is_ascii_alphanumeric() || byte == b'_' || 0x80 <= byte
}

// The place of the first byte from here on that is no blank.
fn behind_blanks(line: &[u8], at: usize) -> usize {
    let behind = line.get(at..).unwrap_or_default();
    match behind.iter().position(|byte| !is_blank(*byte)) {
        Some(count) => at.saturating_add(count),
        None => line.len(),
    }
}

// The place behind the last byte before this one that is no blank.
fn before_blanks(line: &[u8], at: usize) -> usize {
    let before = line.get(..at).unwrap_or(line);
    let last = before.iter().rposition(|byte| !is_blank(*byte));
    last.map_or(0, |place| place.saturating_add(1))
}

// How far the line begins as this text.
fn from_front(line: &[u8], text: &[u8]) -> Reach {
    let mut at: usize = 0;
    for byte in text.iter().filter(|byte| !is_blank(**byte)) {
        let next = behind_blanks(line, at);
        if line.get(next) != Some(byte) {
            return Err(next);
        }
        at = next.saturating_add(1);
    }
    Ok(at)
}

// From where on the line ends as this text.
fn from_back(line: &[u8], text: &[u8]) -> Reach {
    let mut at = line.len();
    for byte in text.iter().rev().filter(|byte| !is_blank(**byte)) {
        let end = before_blanks(line, at);
        let next = end.saturating_sub(1);
        if end == 0 || line.get(next) != Some(byte) {
            return Err(end);
        }
        at = next;
    }
    Ok(at)
}

// Where the word begins in which a place is.
fn word_start(line: &[u8], at: usize) -> usize {
    let before = line.get(..at).unwrap_or(line);
    let last = before.iter().rposition(|byte| !is_of_word(*byte));
    last.map_or(0, |place| place.saturating_add(1))
}

// Where the word ends in which a place is.
fn word_end(line: &[u8], at: usize) -> usize {
    let behind = line.get(at..).unwrap_or_default();
    match behind.iter().position(|byte| !is_of_word(*byte)) {
        Some(count) => at.saturating_add(count),
        None => line.len(),
    }
}

fn piece(text: &[u8], start: usize, end: usize) -> &[u8] {
    text.get(start..end).unwrap_or_default()
}

// Where the part begins, or the macro that holds it.
fn start_of(line: &[u8], made: &[u8], part: Span) -> Reach {
    let is_point = part.end <= part.start;
    let front = from_front(line, piece(made, 0, part.start));
    let back = from_back(line, piece(made, part.start, made.len()));
    match (front, back) {
        (Ok(at), _) if is_point => Ok(at),
        (Ok(at), _) => Ok(behind_blanks(line, at)),
        (_, Ok(at)) if is_point => Ok(before_blanks(line, at)),
        (_, Ok(at)) => Ok(at),
        (Err(at), _) => Err(word_start(line, at)),
    }
}

// Where it ends.
fn end_of(line: &[u8], made: &[u8], part: Span) -> Reach {
    let back = from_back(line, piece(made, part.end, made.len()));
    let front = from_front(line, piece(made, 0, part.end));
    match (back, front) {
        (Ok(at), _) => Ok(before_blanks(line, at)),
        (_, Ok(at)) => Ok(at),
        (Err(at), _) => Err(word_end(line, at)),
    }
}

fn place_of(reach: Reach) -> usize {
    let (Ok(at) | Err(at)) = reach;
    at
}

fn goes_on(byte: Option<&u8>) -> bool {
    byte.is_some_and(|byte| is_of_word(*byte))
}

// Whether a word stands at a place of the line, and is no part of a longer one.
fn is_word_at(line: &[u8], place: usize, word: &[u8]) -> bool {
    let end = place.saturating_add(word.len());
    let before = piece(line, 0, place).last();
    let is_part =
        goes_on(before) && goes_on(word.first()) || goes_on(line.get(end)) && goes_on(word.last());
    piece(line, place, end) == word && !is_part
}

// The place of a word that is between two places once.
fn only_place(line: &[u8], within: Span, word: &[u8]) -> Option<usize> {
    let mut places = within
        .range()
        .filter(|place| is_word_at(line, *place, word));
    let first = places.next()?;
    places.next().is_none().then_some(first)
}

/// Where a part of the line `made` is in the line that it was made from. In what a macro may have
/// become it is looked for as it is.
pub(crate) fn align(line: &str, made: &str, part: Span) -> Aligned {
    let (line, made) = (line.as_bytes(), made.as_bytes());
    let reached = (start_of(line, made, part), end_of(line, made, part));
    let start = place_of(reached.0);
    let end = place_of(reached.1).max(start);
    let place = Span { start, end };
    let word = piece(made, part.start, part.end);
    let is_same = matches!(reached, (Ok(_), Ok(_))) && piece(line, start, end) == word;
    match only_place(line, place, word) {
        Some(start) if !is_same && !word.is_empty() => Aligned {
            place: Span {
                start,
                end: start.saturating_add(word.len()),
            },
            is_same: true,
        },
        _ => Aligned { place, is_same },
    }
}
