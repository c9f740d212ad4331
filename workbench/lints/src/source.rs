//! The text of a description and its tokens.

use edd_lexer::token::{Token, TokenKind};
use edd_source::Span;
use edd_syntax::numbers::TokenNo;

/// The number of a token, counted from 0.
pub(crate) type TokenIndex = usize;

/// The text of a description and its tokens.
#[derive(Clone, Copy)]
pub(crate) struct Source<'s> {
    pub(crate) text: &'s [u8],
    pub(crate) tokens: &'s [Token],
}

/// The index of a token that a tree names.
pub(crate) fn index(at: TokenNo) -> TokenIndex {
    usize::try_from(at.0).unwrap_or(usize::MAX)
}

/// Blanks and comments before a token, or before the end.
#[derive(Clone, Copy)]
pub(crate) struct Gap {
    pub(crate) span: Span,
    // Where the token before it begins, and the line on which it does.
    before: usize,
    line: u32,
}

impl<'s> Source<'s> {
    /// The gaps before the tokens, and the one before the end.
    pub(crate) fn gaps(self) -> impl Iterator<Item = Gap> + 's {
        let first = (Span::before(0), 1);
        let tokens = self
            .tokens
            .iter()
            .map(|token| (Span::of(token), token.line));
        let ends = tokens.clone().map(|(span, _)| span.start);
        let befores = std::iter::once(first).chain(tokens);
        let ends = ends.chain(std::iter::once(self.text.len()));
        befores.zip(ends).map(|((before, line), end)| Gap {
            span: Span {
                start: before.end,
                end,
            },
            before: before.start,
            line,
        })
    }

    /// The line on which a gap begins. Only a string has lines in it.
    pub(crate) fn first_line(&self, gap: Gap) -> u32 {
        let token = self.slice(Span {
            start: gap.before,
            end: gap.span.start,
        });
        let lines = token.iter().filter(|byte| **byte == b'\n').count();
        gap.line
            .saturating_add(u32::try_from(lines).unwrap_or(u32::MAX))
    }

    pub(crate) fn token(&self, at: TokenIndex) -> Option<&'s Token> {
        self.tokens.get(at)
    }

    pub(crate) fn kind(&self, at: TokenIndex) -> Option<TokenKind> {
        self.token(at).map(|token| token.kind)
    }

    pub(crate) fn span(&self, at: TokenIndex) -> Span {
        self.token(at).map_or(Span::before(0), Span::of)
    }

    /// The line on which a token begins; the first one where there is no such token.
    pub(crate) fn line(&self, at: TokenIndex) -> u32 {
        self.token(at).map_or(1, |token| token.line)
    }

    pub(crate) fn bytes(&self, at: TokenIndex) -> &'s [u8] {
        self.slice(self.span(at))
    }

    /// The text of a token that is no string.
    pub(crate) fn word(&self, at: TokenIndex) -> &'s str {
        str::from_utf8(self.bytes(at)).unwrap_or_default()
    }

    pub(crate) fn slice(&self, span: Span) -> &'s [u8] {
        self.text.get(span.range()).unwrap_or_default()
    }

    /// The blanks and comments before a token.
    pub(crate) fn gap_before(&self, at: TokenIndex) -> &'s [u8] {
        let start = at.checked_sub(1).map_or(0, |before| self.span(before).end);
        self.slice(Span {
            start,
            end: self.span(at).start,
        })
    }

    /// Whether a comment, or a line of a preprocessor, is right before a token.
    pub(crate) fn has_comment_before(&self, at: TokenIndex) -> bool {
        !self.gap_before(at).iter().all(u8::is_ascii_whitespace)
    }

    /// The blanks before a token, where nothing else is before it on its line.
    pub(crate) fn indentation(&self, at: TokenIndex) -> Option<&'s [u8]> {
        let gap = self.gap_before(at);
        let blanks = gap.rsplit(|byte| *byte == b'\n').next()?;
        let is_first = at == 0 || blanks.len() < gap.len();
        let is_blank = blanks
            .iter()
            .all(|byte| matches!(byte, b' ' | b'\t' | b'\r'));
        (is_first && is_blank).then_some(blanks)
    }
}
