//! Where a text that has no tokens has its fault.
//!
//! The fault is known, and its line. A scan from that line on finds the byte: what could be the
//! fault's token is given to the lexer by itself.

use crate::core::lex;
use edd_lexer::fault::LexFault;
use edd_source::Span;
use edd_source::pieces::{Piece, Shape, byte_at, pieces_of};

/// Where a fault is.
#[derive(Clone, Copy)]
pub(super) struct Place {
    /// Where it is shown.
    pub(super) span: Option<Span>,
    /// The byte from which on the text may be read again.
    pub(super) resumes_at: Option<usize>,
}

/// Where a fault of a text is.
pub(super) fn place_of(text: &[u8], fault: &LexFault) -> Place {
    let at = |place| Place {
        span: Some(Span::before(place)),
        resumes_at: None,
    };
    let Some(line) = fault.line() else {
        return Place {
            span: None,
            resumes_at: None,
        };
    };
    if matches!(fault, LexFault::NotUtf8 { .. }) {
        return at(valid_length(text));
    }
    let from = start_of_line(text, line);
    match find(text, from, fault) {
        Some(piece) => {
            let span = narrowed(text, piece, fault);
            Place {
                span: Some(span),
                resumes_at: has_end(fault).then_some(span.start),
            }
        }
        None => at(from),
    }
}

/// Whether it is known where the text goes on after a fault.
pub(super) fn has_end(fault: &LexFault) -> bool {
    matches!(
        fault,
        LexFault::BadCharacter { .. } | LexFault::BadEscape { .. } | LexFault::BadNumber { .. }
    )
}

// Where the first byte of a line is, counted from 1; the end of the text where there is no such
// line.
fn start_of_line(text: &[u8], line: u32) -> usize {
    let Some(before) = line.checked_sub(2) else {
        return 0;
    };
    let mut ends = text.iter().enumerate().filter(|(_, byte)| **byte == b'\n');
    let last = ends.nth(usize::try_from(before).unwrap_or(usize::MAX));
    last.map_or(text.len(), |(place, _)| place.saturating_add(1))
}

// How many bytes at the front are UTF-8.
fn valid_length(text: &[u8]) -> usize {
    match str::from_utf8(text) {
        Ok(_) => text.len(),
        Err(error) => error.valid_up_to(),
    }
}

// The first piece from a place on at which the text has this fault. Strings and comments are passed
// whole, so that nothing inside of them is taken for a token.
fn find(text: &[u8], from: usize, fault: &LexFault) -> Option<Span> {
    pieces_of(text)
        .filter(|piece| from <= piece.span.start)
        .find(|piece| is_at(text, *piece, fault))
        .map(|piece| piece.span)
}

// Whether a piece is where the text has this fault.
fn is_at(text: &[u8], piece: Piece, fault: &LexFault) -> bool {
    let start = piece.span.start;
    match (fault, piece.shape) {
        (LexFault::OpenComment { .. }, Shape::OpenComment)
        | (LexFault::OpenString { .. }, Shape::OpenString) => true,
        (LexFault::Directive { .. }, Shape::Sign) => byte_at(text, start) == b'#',
        // By itself it would be at the beginning of a text, and of a line.
        (LexFault::BadCharacter { .. }, Shape::Sign) if byte_at(text, start) == b'#' => true,
        (LexFault::BadCharacter { .. }, Shape::Word) if is_mark_of_order(text, start) => true,
        (LexFault::BadEscape { .. }, Shape::String)
        | (LexFault::BadNumber { .. }, Shape::Word)
        | (LexFault::BadCharacter { .. }, Shape::Word | Shape::Sign) => {
            let alone = text.get(piece.span.range()).unwrap_or_default();
            lex(alone).is_err_and(|found| is_alike(&found, fault))
        }
        _ => false,
    }
}

// Whether a mark of the byte order is at a place that is not the beginning.
fn is_mark_of_order(text: &[u8], place: usize) -> bool {
    let at = text.get(place..).unwrap_or_default();
    0 < place && at.starts_with(b"\xef\xbb\xbf")
}

// Whether two faults are of one kind.
fn is_alike(one: &LexFault, other: &LexFault) -> bool {
    matches!(
        (one, other),
        (LexFault::BadCharacter { .. }, LexFault::BadCharacter { .. })
            | (LexFault::BadEscape { .. }, LexFault::BadEscape { .. })
            | (LexFault::BadNumber { .. }, LexFault::BadNumber { .. })
    )
}

// The part of a piece that the fault is.
fn narrowed(text: &[u8], span: Span, fault: &LexFault) -> Span {
    match fault {
        LexFault::BadCharacter { .. } => first_bad_character(text, span),
        LexFault::BadEscape { .. } => first_bad_escape(text, span),
        _ => span,
    }
}

// The first character of the piece that no token begins with or goes on with.
fn first_bad_character(text: &[u8], span: Span) -> Span {
    let bytes = text.get(span.range()).unwrap_or_default();
    let Some(before) = bytes.iter().position(|byte| 0x80 <= *byte) else {
        return span;
    };
    let start = span.start.saturating_add(before);
    let character = Span { start, ..span }.read(text).chars().next();
    let length = character.map_or(1, char::len_utf8);
    Span {
        start,
        end: start.saturating_add(length),
    }
}

// The first backslash of a string that no escape begins with.
fn first_bad_escape(text: &[u8], span: Span) -> Span {
    let mut is_escaped = false;
    let bytes = text.get(span.range()).unwrap_or_default();
    let bad = bytes.iter().position(|byte| {
        let is_bad = is_escaped && !matches!(*byte, b'"' | b'\\' | b'n' | b't' | b'|');
        is_escaped = *byte == b'\\' && !is_escaped;
        is_bad
    });
    let Some(behind) = bad else {
        return span;
    };
    let start = span.start.saturating_add(behind);
    let character = Span { start, ..span }.read(text).chars().next();
    Span {
        start: start.saturating_sub(1),
        end: start.saturating_add(character.map_or(1, char::len_utf8)),
    }
}
