//! A text cut into pieces by its bytes, whether or not it has tokens.

use crate::Span;

/// What a piece of a text is, as far as it can be told from its first bytes.
#[derive(Clone, Copy, Debug, PartialEq, Eq)]
pub enum Shape {
    /// Blanks.
    Gap,
    /// A comment.
    Comment,
    /// The sign of a comment that is never closed.
    OpenComment,
    /// A string, with its quotes.
    String,
    /// The quote of a string that is never closed.
    OpenString,
    /// A word, a number, or characters past ASCII.
    Word,
    /// Another byte.
    Sign,
}

/// A piece of a text.
#[derive(Clone, Copy, Debug, PartialEq, Eq)]
pub struct Piece {
    /// What it is.
    pub shape: Shape,
    /// Its bytes.
    pub span: Span,
}

/// The byte at a place, or 0 behind the end.
pub fn byte_at(text: &[u8], place: usize) -> u8 {
    text.get(place).copied().unwrap_or(0)
}

// How many bytes there are up to the end of a comment and with it.
fn comment_length(text: &[u8]) -> Option<usize> {
    let end = text.windows(2).position(|pair| pair == b"*/")?;
    end.checked_add(2)
}

/// How many bytes there are before the first LF.
pub fn line_length(text: &[u8]) -> usize {
    text.iter()
        .position(|byte| *byte == b'\n')
        .unwrap_or(text.len())
}

// How many bytes there are up to the quote that closes a string and with it.
fn string_length(text: &[u8]) -> Option<usize> {
    let mut is_escaped = false;
    let closes = |byte: &u8| {
        let is_quote = *byte == b'"' && !is_escaped;
        is_escaped = *byte == b'\\' && !is_escaped;
        is_quote
    };
    text.iter().position(closes)?.checked_add(1)
}

// Whether a byte may be in a word, a number, or a character past ASCII.
fn is_of_word(byte: u8) -> bool {
    byte.is_ascii_alphanumeric() || byte == b'_' || byte == b'.' || 0x80 <= byte
}

fn word_length(text: &[u8]) -> usize {
    text.iter()
        .position(|byte| !is_of_word(*byte))
        .unwrap_or(text.len())
}

// What begins with `/*` or `"`, from the first byte after that.
fn closed(shape: Shape, open: Shape, before: usize, length: Option<usize>) -> (Shape, usize) {
    match length {
        Some(length) => (shape, before.saturating_add(length)),
        None => (open, before),
    }
}

// The first piece of a text, by its length.
fn first_piece(text: &[u8]) -> (Shape, usize) {
    match text {
        [b' ' | b'\t' | b'\r' | b'\n' | 0x0b | 0x0c, ..] => (Shape::Gap, 1),
        [b'/', b'/', behind @ ..] => (Shape::Comment, line_length(behind).saturating_add(2)),
        [b'/', b'*', behind @ ..] => closed(
            Shape::Comment,
            Shape::OpenComment,
            2,
            comment_length(behind),
        ),
        [b'"', behind @ ..] => closed(Shape::String, Shape::OpenString, 1, string_length(behind)),
        [byte, ..] if is_of_word(*byte) => (Shape::Word, word_length(text)),
        _ => (Shape::Sign, 1),
    }
}

/// The pieces of a text, from its first byte to its last.
pub fn pieces_of(text: &[u8]) -> impl Iterator<Item = Piece> {
    let mut place = 0;
    std::iter::from_fn(move || {
        let piece = (place < text.len()).then(|| piece_at(text, place))?;
        place = piece.span.end;
        Some(piece)
    })
}

/// The piece that begins at a place.
pub fn piece_at(text: &[u8], start: usize) -> Piece {
    let (shape, length) = first_piece(text.get(start..).unwrap_or_default());
    let end = start.saturating_add(length);
    Piece {
        shape,
        span: Span { start, end },
    }
}
