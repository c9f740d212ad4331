//! A comment that is not closed where it was to be, and goes on to the end of another one.

use crate::slips::At;
use edd_source::Span;
use edd_source::pieces::{Piece, Shape, pieces_of};
use edd_source::tokens::item_kind;

/// The last comment between the word of the last item before a token and that token in which another one
/// begins on a later line.
pub(super) fn open_comment(at: At<'_>) -> Option<Span> {
    let before = at.tokens.get(..at.number)?;
    let item = before.iter().rfind(|token| item_kind(token).is_some());
    let start = item.map_or(0, |item| Span::of(item).start);
    let end = at
        .token()
        .map_or(at.text.len(), |token| Span::of(token).start);
    let part = at.text.get(start..end)?;
    let swallows = |piece: &Piece| {
        let comment = piece.span.read(part);
        let later = comment.split_once('\n').map_or("", |(_, later)| later);
        piece.shape == Shape::Comment && comment.starts_with("/*") && later.contains("/*")
    };
    let comment = pieces_of(part).filter(swallows).last()?.span;
    Some(Span {
        start: comment.start.checked_add(start)?,
        end: comment.end.checked_add(start)?,
    })
}
