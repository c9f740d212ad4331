//! The items of a text, and what of it can be folded.

use crate::Document;
use crate::comments::comments_in;
use crate::walk::Item;
use edd_source::Span;
use edd_syntax::numbers::Kind;
use edd_syntax::symbols::Symbol as Sign;

/// An item.
#[derive(Clone, Copy, Debug, PartialEq, Eq)]
pub struct Symbol<'d> {
    /// Its name.
    pub name: &'d str,
    /// Its kind.
    pub kind: Kind,
    /// From its first word to its last brace.
    pub span: Span,
    /// The place of its name.
    pub name_span: Span,
}

/// A part of a text that can be folded.
#[derive(Clone, Copy, Debug, PartialEq, Eq)]
pub struct Fold {
    /// The opening brace, or the sign that opens the comment.
    pub start: Span,
    /// The closing brace, or the sign that closes the comment.
    pub end: Span,
    /// Whether it is a comment.
    pub is_comment: bool,
}

/// How many bytes open or close a block comment.
const SIGN: usize = 2;

impl Document {
    /// The items of the text, in their order.
    pub fn symbols(&self) -> Vec<Symbol<'_>> {
        let symbols = self.items().iter().map(|item| self.symbol(item));
        symbols.flatten().collect()
    }

    pub(crate) fn symbol(&self, item: &Item) -> Option<Symbol<'_>> {
        Some(Symbol {
            name: self.word(item.name),
            kind: item.kind,
            span: self.span(item.first)?.up_to(self.span(item.last)?),
            name_span: self.span(item.name)?,
        })
    }

    /// The braces and the block comments of the text, by where they begin.
    pub fn folds(&self) -> Vec<Fold> {
        let gaps = (0..=self.tokens().len()).map(|token| self.gap_before(token));
        let comments = gaps.flat_map(|gap| comments_in(self.bytes(), gap));
        let comments = comments
            .filter(|comment| comment.is_block)
            .map(|comment| comment_fold(comment.span));
        let braces = (0..self.tokens().len()).filter_map(|token| self.brace_fold(token));
        let mut folds: Vec<_> = comments.chain(braces).collect();
        folds.sort_by_key(|fold| fold.start.start);
        folds
    }

    /// The braces that a token closes.
    fn brace_fold(&self, token: usize) -> Option<Fold> {
        if !self.is_sign(token, Sign::CloseBrace) {
            return None;
        }
        Some(Fold {
            start: self.span(self.spot(token).open?)?,
            end: self.span(token)?,
            is_comment: false,
        })
    }
}

fn comment_fold(Span { start, end }: Span) -> Fold {
    Fold {
        start: Span {
            start,
            end: start.saturating_add(SIGN),
        },
        end: Span {
            start: end.saturating_sub(SIGN),
            end,
        },
        is_comment: true,
    }
}
