//! The layout of the lines that a typed character ends.

use crate::Document;
use edd_source::{Edit, Span};
use edd_syntax::symbols::Symbol;

/// A character behind which lines are laid out.
#[derive(Clone, Copy, Debug, PartialEq, Eq)]
pub enum Typed {
    /// A `;`, which ends a statement or an attribute.
    Semicolon,
    /// A `}`, which ends what begins before its `{`.
    Brace,
    /// A line feed.
    LineEnd,
}

/// Tokens from the first one on a line up to a later one.
#[derive(Clone, Copy, Debug)]
struct Ended {
    first: usize,
    last: usize,
}

impl Typed {
    /// The character that an editor names, if lines are laid out behind it.
    ///
    /// ```
    /// use edd_ide::Typed;
    ///
    /// assert_eq!(Typed::from_text("}"), Some(Typed::Brace));
    /// assert_eq!(Typed::from_text("a"), None);
    /// ```
    pub fn from_text(text: &str) -> Option<Typed> {
        match text {
            ";" => Some(Typed::Semicolon),
            "}" => Some(Typed::Brace),
            "\n" => Some(Typed::LineEnd),
            _ => None,
        }
    }
}

impl Document {
    /// The edits that lay out the lines that a character ends which was typed before a byte. They are
    /// those of [`Document::format_edits`] between the tokens of these lines, and the indentation of
    /// the first one. Nothing behind the character changes, so that the cursor stays where it is.
    ///
    /// ```
    /// use edd_ide::{Document, Typed};
    ///
    /// let text = "METHOD m {\n    DEFINITION {\n  a  =1;\n";
    /// let document = Document::new(text);
    /// let edits = document.format_edits_typed(text.len() - 1, Typed::Semicolon);
    /// let texts: Vec<_> = edits.iter().map(|edit| edit.text.as_str()).collect();
    /// assert_eq!(texts, ["        ", " ", " "]);
    /// ```
    pub fn format_edits_typed(&self, byte: usize, typed: Typed) -> Vec<Edit> {
        let byte = byte.min(self.text().len());
        let Some(ended) = self.ended_by(byte, typed) else {
            return Vec::new();
        };
        let (Some(first), Some(last)) = (self.span(ended.first), self.span(ended.last)) else {
            return Vec::new();
        };
        let edits = self.format_edits().into_iter();
        let edits = edits
            .skip_while(|edit| edit.span.end < first.start)
            .take_while(|edit| edit.span.end <= last.start);
        let mut edits: Vec<Edit> = edits
            .filter_map(|edit| {
                if edit.span.end == first.start {
                    self.indentation(&edit)
                } else {
                    Some(edit)
                }
            })
            .collect();
        if typed == Typed::LineEnd {
            edits.extend(self.blanks_behind(last.end));
        }
        edits
    }

    /// The tokens of the lines that end at a byte.
    fn ended_by(&self, byte: usize, typed: Typed) -> Option<Ended> {
        let before = |byte: usize| self.token_from(byte).checked_sub(1);
        let (last, sign) = match typed {
            Typed::Semicolon => (before(byte)?, Symbol::Semicolon),
            Typed::Brace => (before(byte)?, Symbol::CloseBrace),
            Typed::LineEnd => {
                let end = self.text().get(..byte)?.rfind('\n')?;
                let last = before(end)?;
                let first = self.first_of_line(last);
                let is_there = !self.has_line_end(self.span(last)?.end, end);
                return is_there.then_some(Ended { first, last });
            }
        };
        if !self.is_sign(last, sign) || self.span(last)?.end != byte {
            return None;
        }
        let begins = match typed {
            Typed::Brace => self.opening_of(last),
            _ => self.beginning_of(last),
        };
        let first = self.first_of_line(begins);
        Some(Ended { first, last })
    }

    /// The brace that a closing one closes, or the closing one itself.
    fn opening_of(&self, close: usize) -> usize {
        let mut depth: usize = 0;
        for token in (0..close).rev() {
            if self.is_sign(token, Symbol::CloseBrace) {
                depth = depth.saturating_add(1);
            } else if self.is_sign(token, Symbol::OpenBrace) {
                if depth == 0 {
                    return token;
                }
                depth = depth.saturating_sub(1);
            }
        }
        close
    }

    /// The first token behind the semicolon or brace before a token.
    fn beginning_of(&self, end: usize) -> usize {
        let ends = [Symbol::Semicolon, Symbol::OpenBrace, Symbol::CloseBrace];
        let is_end = |token: &usize| ends.iter().any(|sign| self.is_sign(*token, *sign));
        let before = (0..end).rev().find(is_end);
        before.map_or(0, |before| before.saturating_add(1))
    }

    /// The first token of the line on which a token begins.
    fn first_of_line(&self, token: usize) -> usize {
        let begins_line = |token: &usize| {
            let gap = self.gap_before(*token);
            *token == 0 || self.has_line_end(gap.start, gap.end)
        };
        (0..=token).rev().find(begins_line).unwrap_or(token)
    }

    fn has_line_end(&self, start: usize, end: usize) -> bool {
        let between = self.text().get(start..end);
        between.is_some_and(|between| between.contains('\n'))
    }

    /// Of an edit before the first token of a line what changes its indentation.
    fn indentation(&self, edit: &Edit) -> Option<Edit> {
        let old = edit.span.text(self.text())?;
        let old = match old.rfind('\n') {
            Some(end) => old.get(end.saturating_add(1)..)?,
            None if edit.span.start == 0 => old,
            None => return None,
        };
        let new = edit.text.rsplit('\n').next().unwrap_or_default();
        let (old_rest, new_rest) = (old.trim_start(), new.trim_start());
        let start = edit.span.end.saturating_sub(old.len());
        let end = edit.span.end.saturating_sub(old_rest.len());
        let blanks = new.len().saturating_sub(new_rest.len());
        let text = new.get(..blanks)?.to_owned();
        let is_other = old.len().saturating_sub(old_rest.len()) != blanks;
        let is_indentation = old_rest == new_rest && is_other;
        let span = Span { start, end };
        is_indentation.then_some(Edit { span, text })
    }

    /// The edit that removes the blanks between a place and the end of its line.
    fn blanks_behind(&self, start: usize) -> Option<Edit> {
        let rest = self.text().get(start..)?.split(['\r', '\n']).next()?;
        let is_blank = !rest.is_empty() && rest.trim_start_matches([' ', '\t']).is_empty();
        let end = start.saturating_add(rest.len());
        let (span, text) = (Span { start, end }, String::new());
        is_blank.then_some(Edit { span, text })
    }
}
