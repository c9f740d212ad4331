//! What a token opens, closes or ends.

use crate::frames::{Control, Frame, FrameKind, INDENT};
use crate::roles::Role;
use crate::writer::{Following, Writer};
use edd_syntax::symbols::{Keyword, Symbol};

/// The columns that a line may have.
const LINE_WIDTH: usize = 100;

impl Writer<'_, '_> {
    /// Ends the statements in braces that a token closes, where nothing else ended them.
    pub(crate) fn leave_statements(&mut self, number: usize) {
        let closes = self.units.role(number) == Some(Role::CloseBrace);
        if closes && number >= self.joined_until {
            while self.leave_controlled().is_some() {}
        }
    }

    /// Takes in what a token that is written opens, closes or ends.
    pub(crate) fn step(&mut self, number: usize) {
        self.following = Following::Inside;
        self.frames.pop_if(|frame| frame.close == Some(number));
        if number.saturating_add(1) < self.joined_until {
            return;
        }
        if self.tokens.is_string(number) {
            self.begin_strings(number);
        }
        match self.tokens.partner(number) {
            Some(close) if close > number => {
                if self.tokens.symbol(number) == Some(Symbol::OpenBrace) {
                    self.open_braces(number, close);
                } else {
                    self.open_group(number, close);
                }
            }
            _ => self.step_in(number),
        }
    }

    fn kind(&self) -> Option<FrameKind> {
        Some(self.frames.last()?.kind)
    }

    /// Whether all behind a token, up to another one and a sign directly after it, fits on the line.
    fn fits(&self, number: usize, last: usize) -> bool {
        let behind = last.saturating_add(1);
        let last = if self.is_separator(behind) {
            behind
        } else {
            last
        };
        let (Some(from), Some(to)) = (self.units.get(number), self.units.get(last)) else {
            return false;
        };
        let columns = to.end.saturating_sub(from.end);
        from.line_ends == to.line_ends && self.column.saturating_add(columns) <= LINE_WIDTH
    }

    fn enter(&mut self, kind: FrameKind, close: Option<usize>, indent: usize) {
        self.frames.push(Frame {
            kind,
            close,
            indent,
            outer: self.base,
            is_labelled: false,
        });
    }

    /// Opens parentheses or brackets.
    fn open_group(&mut self, open: usize, close: usize) {
        if self.fits(open, close) {
            self.joined_until = close.saturating_add(1);
            return;
        }
        let kind = match self.tokens.header_keyword(close) {
            Some(Keyword::For) => FrameKind::Parts,
            _ => FrameKind::Arguments,
        };
        self.enter(kind, Some(close), self.column);
    }

    fn open_braces(&mut self, open: usize, close: usize) {
        let is_empty = close == open.saturating_add(1) && self.units.gap(close).comments.is_empty();
        if is_empty {
            self.joined_until = close.saturating_add(1);
            return;
        }
        let kind = FrameKind::of_braces(self.tokens, open, self.kind());
        let is_divided = matches!(kind, FrameKind::Item | FrameKind::Body);
        if !is_divided && !self.tokens.is_after_else(open) {
            let end = self.tokens.chain_end(close);
            if self.fits(open, end) {
                self.joined_until = end.saturating_add(1);
                return;
            }
        }
        self.following = Following::Begins;
        self.enter(kind, Some(close), self.base.saturating_add(INDENT));
    }

    /// Decides at the first of some strings in a row whether each has a line of its own.
    fn begin_strings(&mut self, number: usize) {
        let next = number.saturating_add(1);
        let row = (next..self.tokens.len()).take_while(|at| self.tokens.is_string(*at));
        if !self.tokens.is_string(next) {
            self.strings = None;
        } else if !self.tokens.is_string_before(number) {
            let last = row.last().unwrap_or(number);
            self.strings = (!self.fits(number, last)).then_some(self.token_column);
        }
    }

    /// What a token does in the frame that is open.
    fn step_in(&mut self, number: usize) {
        match self.kind() {
            Some(FrameKind::Body | FrameKind::Controlled(_)) => self.step_in_body(number),
            Some(FrameKind::Arguments | FrameKind::Parts) => {}
            kind => {
                if self.ends_line(number, kind) {
                    self.following = Following::Begins;
                }
            }
        }
    }

    /// Whether a token ends a line in a frame, or outside of all.
    fn ends_line(&self, number: usize, kind: Option<FrameKind>) -> bool {
        match self.tokens.symbol(number) {
            Some(Symbol::CloseBrace) if kind != Some(FrameKind::Cases) => {
                self.tokens.keyword_after(number) != Some(Keyword::Else)
            }
            Some(Symbol::Semicolon) => kind != Some(FrameKind::Cases),
            Some(Symbol::Comma) => kind == Some(FrameKind::List),
            _ => false,
        }
    }

    /// What a token does among statements.
    fn step_in_body(&mut self, number: usize) {
        let word = self.tokens.keyword(number);
        match self.units.role(number) {
            Some(Role::CloseBrace) => self.end_statement(number),
            Some(Role::Separator) if self.tokens.symbol(number) == Some(Symbol::Semicolon) => {
                self.end_statement(number);
            }
            Some(Role::LabelColon) => {
                self.following = Following::Begins;
                if let Some(frame) = self.frames.last_mut() {
                    frame.is_labelled = true;
                }
            }
            Some(Role::CloseHeader) => match self.tokens.header_keyword(number) {
                Some(Keyword::MethodIf) => self.control(Control::If),
                _ => self.control(Control::Other),
            },
            Some(Role::Keyword) if word == Some(Keyword::Do) => self.control(Control::Do),
            Some(Role::Keyword) if word == Some(Keyword::MethodElse) => {
                self.control(Control::Other);
            }
            _ => {}
        }
    }

    /// Begins the statement under a word.
    fn control(&mut self, control: Control) {
        self.following = Following::Begins;
        self.enter(FrameKind::Controlled(control), None, self.base);
    }

    /// Ends the statement whose last token has a number, and those that end with it.
    fn end_statement(&mut self, number: usize) {
        self.following = Following::Begins;
        let word = self.tokens.keyword_after(number);
        while let Some(frame) = self.leave_controlled() {
            let goes_on = match frame.kind {
                FrameKind::Controlled(Control::If) => word == Some(Keyword::MethodElse),
                FrameKind::Controlled(Control::Do) => word == Some(Keyword::While),
                _ => false,
            };
            if goes_on {
                self.base = frame.indent;
                self.following = Following::GoesOn;
                return;
            }
        }
    }

    /// Leaves the innermost frame, where it is that of a statement under a word.
    fn leave_controlled(&mut self) -> Option<Frame> {
        self.frames.pop_if(|frame| frame.is_controlled())
    }
}
