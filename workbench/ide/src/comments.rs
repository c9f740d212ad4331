//! Comments, which are between tokens.

use crate::Document;
use edd_source::Span;

/// A comment, and whether it is a block.
#[derive(Clone, Copy, Debug)]
pub(crate) struct Comment {
    pub(crate) span: Span,
    pub(crate) is_block: bool,
}

/// How many bytes a block comment has whose inside this is: all of them where it is not closed.
fn block_length(inside: &[u8]) -> usize {
    let end = inside.windows(2).position(|pair| pair == b"*/");
    match end {
        Some(end) => end.saturating_add(4),
        None => inside.len().saturating_add(2),
    }
}

/// How many bytes a line comment has whose inside this is, without the end of the line.
fn line_length(inside: &[u8]) -> usize {
    let end = inside.iter().position(|byte| *byte == b'\n');
    end.unwrap_or(inside.len()).saturating_add(2)
}

/// How many bytes a comment has that a text begins with, and whether it is a block.
fn length_at(text: &[u8]) -> Option<(usize, bool)> {
    match text {
        [b'/', b'/', inside @ ..] => Some((line_length(inside), false)),
        [b'/', b'*', inside @ ..] => Some((block_length(inside), true)),
        _ => None,
    }
}

/// The first comment in a span of a text.
fn comment_in(text: &[u8], span: Span) -> Option<Comment> {
    let gap = text.get(span.range())?;
    let (before, (length, is_block)) =
        (0..gap.len()).find_map(|index| Some((index, length_at(gap.get(index..)?)?)))?;
    let start = span.start.saturating_add(before);
    let end = start.saturating_add(length);
    Some(Comment {
        span: Span { start, end },
        is_block,
    })
}

/// The comments in a gap between two tokens.
pub(crate) fn comments_in(text: &[u8], gap: Span) -> impl Iterator<Item = Comment> {
    let mut left = gap;
    std::iter::from_fn(move || {
        let comment = comment_in(text, left)?;
        left.start = comment.span.end;
        Some(comment)
    })
}

/// Whether something else than blanks is on a line before its end.
fn has_signs(text: &[u8]) -> bool {
    let line = text.rsplit(|byte| *byte == b'\n').next();
    line.unwrap_or_default().iter().any(|byte| b' ' < *byte)
}

/// Whether a byte is in a comment, past its first sign, or in the part of a line behind a lexical
/// fault.
pub(crate) fn is_unread(document: &Document, byte: usize) -> bool {
    let gap = document.gap_before(document.token_from(byte));
    let mut start = gap.start;
    for comment in comments_in(document.bytes(), gap) {
        if byte <= comment.span.start {
            break;
        }
        // A line comment goes on up to the end of its line.
        let last = usize::from(!comment.is_block);
        if byte < comment.span.end.saturating_add(last) {
            return true;
        }
        start = comment.span.end;
    }
    let before = document.bytes().get(start..byte.min(gap.end));
    has_signs(before.unwrap_or_default())
}
