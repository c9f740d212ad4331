//! Spans of bytes.

use edd_lexer::token::Token;
use std::ops::Range;

/// The bytes of a source from `start` up to `end`.
///
/// ```
/// use edd_source::Span;
///
/// let span = Span { start: 4, end: 9 };
/// assert_eq!(span.text("TYPE ASCII (4)"), Some(" ASCI"));
/// assert_eq!(span.text("TYPE"), None);
/// ```
#[derive(Clone, Copy, Debug, PartialEq, Eq, PartialOrd, Ord, Hash)]
pub struct Span {
    /// The first byte.
    pub start: usize,
    /// The byte behind the last one.
    pub end: usize,
}

impl Span {
    /// The empty span before a byte.
    pub fn before(place: usize) -> Span {
        Span {
            start: place,
            end: place,
        }
    }

    /// The span of a token.
    pub fn of(token: &Token) -> Span {
        Span {
            start: offset(token.start),
            end: offset(token.end),
        }
    }

    /// The empty span right behind a token.
    pub fn behind(token: &Token) -> Span {
        Span::before(offset(token.end))
    }

    /// The span from the first byte of this one up to the last of another.
    pub fn up_to(self, other: Span) -> Span {
        Span {
            start: self.start,
            end: other.end,
        }
    }

    /// What stands there in the bytes of a source; nothing where that is no text.
    pub fn read(self, source: &[u8]) -> &str {
        let bytes = source.get(self.range()).unwrap_or_default();
        str::from_utf8(bytes).unwrap_or_default()
    }

    /// The bytes as a range, to index with.
    pub fn range(self) -> Range<usize> {
        self.start..self.end
    }

    /// How many bytes there are.
    pub fn len(self) -> usize {
        self.end.saturating_sub(self.start)
    }

    /// Whether there are none.
    pub fn is_empty(self) -> bool {
        self.len() == 0
    }

    /// What stands there, unless the span leaves the text or cuts a character.
    pub fn text(self, source: &str) -> Option<&str> {
        source.get(self.range())
    }
}

// A source is shorter than 4 GiB, so that this holds on each system that has 32 bits.
fn offset(place: u32) -> usize {
    usize::try_from(place).unwrap_or(usize::MAX)
}
