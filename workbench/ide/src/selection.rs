//! What is selected around a place, from the word to the text.

use crate::Document;
use edd_source::Span;
use edd_syntax::symbols::Symbol;

impl Document {
    /// The spans around a byte, from the inner ones to the outer ones: the word, its statement or
    /// attribute, each pair of braces with what is in it, the item, and the text.
    ///
    /// ```
    /// use edd_ide::Document;
    ///
    /// let document = Document::new("MENU m { ITEMS { p } }\nMENU n { }");
    /// let spans = document.selections(17);
    /// let texts: Vec<_> = spans.iter().map(|span| span.text(document.text()).unwrap()).collect();
    /// assert_eq!(texts[..4], ["p", "{ p }", "ITEMS { p }", "{ ITEMS { p } }"]);
    /// assert_eq!(texts[4..], ["MENU m { ITEMS { p } }", document.text()]);
    /// ```
    pub fn selections(&self, byte: usize) -> Vec<Span> {
        let mut spans = Vec::new();
        if let Some(token) = self.token_at(byte) {
            self.push_around(token, &mut spans);
        }
        let length = self.text().len();
        spans.push(Span {
            start: 0,
            end: length,
        });
        spans.dedup();
        spans
    }

    /// Adds what is around a token, up to its item.
    fn push_around(&self, token: usize, spans: &mut Vec<Span>) {
        spans.extend(self.span(token));
        let Some(item) = self.items().iter().rfind(|item| item.first <= token) else {
            return;
        };
        if item.last < token {
            return;
        }
        let mut inner = token;
        let mut open = self.spot(token).open;
        while let Some(brace) = open {
            spans.extend(self.statement_around(inner, brace, item.last));
            let close = self.close_of(brace, item.last);
            spans.extend(self.spans_up_to(brace, close));
            inner = brace;
            open = self.spot(brace).open;
        }
        spans.extend(self.spans_up_to(item.first, item.last));
        // A brace is in no statement of its own braces, and two spans may be the same.
        let mut widest: Option<Span> = None;
        spans.retain(|span| {
            let is_around = widest.is_none_or(|inner| {
                span.start <= inner.start && inner.end <= span.end && inner != *span
            });
            if is_around {
                widest = Some(*span);
            }
            is_around
        });
    }

    fn spans_up_to(&self, first: usize, last: usize) -> Option<Span> {
        Some(self.span(first)?.up_to(self.span(last)?))
    }

    /// The brace that closes another one; where it is not closed the last token that may be in it.
    fn close_of(&self, open: usize, last: usize) -> usize {
        let closes = |token: &usize| {
            self.is_sign(*token, Symbol::CloseBrace) && self.spot(*token).open == Some(open)
        };
        (open..=last).find(closes).unwrap_or(last)
    }

    /// The statement, attribute or entry in which a token is, directly in these braces: from behind
    /// what ends the one before it to what ends it.
    fn statement_around(&self, token: usize, open: usize, last: usize) -> Option<Span> {
        let ends = |token: usize| {
            let is_here = self.spot(token).open == Some(open);
            let is_semicolon = is_here && self.is_sign(token, Symbol::Semicolon);
            is_semicolon || self.closes_in(token, open)
        };
        let before = (open.saturating_add(1)..token).rev().find(|it| ends(*it));
        let first = before.unwrap_or(open).saturating_add(1);
        let is_outside = |token: &usize| {
            self.is_sign(*token, Symbol::CloseBrace) && self.spot(*token).open == Some(open)
        };
        let end = (token..=last).find(|it| ends(*it) || is_outside(it))?;
        let end = if is_outside(&end) {
            end.checked_sub(1)?
        } else {
            end
        };
        (first <= end)
            .then(|| self.spans_up_to(first, end))
            .flatten()
    }

    /// Whether a token closes braces that are directly in other ones.
    fn closes_in(&self, token: usize, open: usize) -> bool {
        let own = self.spot(token).open;
        self.is_sign(token, Symbol::CloseBrace)
            && own.is_some_and(|own| self.spot(own).open == Some(open))
    }
}
