//! Where a token stands: on the line, or on a new one.

use crate::frames::{Frame, FrameKind};
use crate::roles::Role;
use crate::writer::{Following, Writer};
use edd_syntax::numbers::Attr;
use edd_syntax::symbols::{Keyword, Symbol};

#[derive(Clone, Copy, Debug)]
pub(crate) enum Place {
    /// On the line.
    Here,
    /// On a line that goes on the one before, at this column.
    Below(usize),
    /// On a line of its own.
    Line {
        /// The columns before it.
        indent: usize,
        /// The columns before the comments above it.
        comments: usize,
        /// A blank line before it is kept.
        keeps_blank_line: bool,
    },
}

impl Place {
    /// The place of what begins.
    pub(crate) fn new_line(indent: usize) -> Place {
        Place::Line {
            indent,
            comments: indent,
            keeps_blank_line: true,
        }
    }
}

impl Writer<'_, '_> {
    /// Finds the place of a token.
    pub(crate) fn find_place(&self, number: usize) -> Place {
        if number < self.joined_until {
            return Place::Here;
        }
        if self.tokens.is_string(number) && self.tokens.is_string_before(number) {
            return self.strings.map_or(Place::Here, Place::Below);
        }
        if self.following == Following::GoesOn {
            return self.place_going_on(number);
        }
        let is_separator = self.units.role(number) == Some(Role::Separator);
        if is_separator && self.units.role_before(number) != Some(Role::OpenBrace) {
            return Place::Here;
        }
        match self.frames.last() {
            Some(frame) if frame.close == Some(number) => place_of_close(frame),
            Some(frame) => self.place_in(number, frame),
            None if self.following == Following::Begins || self.begins_line(number, None) => {
                Place::new_line(0)
            }
            None => Place::Here,
        }
    }

    /// The place of what goes on an `if` or a `do`.
    fn place_going_on(&self, number: usize) -> Place {
        if self.units.role_before(number) == Some(Role::CloseBrace) {
            return Place::Here;
        }
        Place::Line {
            indent: self.base,
            comments: self.base,
            keeps_blank_line: false,
        }
    }

    /// The place of a token in a frame that it does not close.
    fn place_in(&self, number: usize, frame: &Frame) -> Place {
        let begins = self.following == Following::Begins;
        match frame.kind {
            FrameKind::Arguments if self.tokens.symbol_before(number) == Some(Symbol::Comma) => {
                Place::Below(frame.indent)
            }
            FrameKind::Arguments | FrameKind::Parts => Place::Here,
            FrameKind::Body | FrameKind::Controlled(_) if begins => {
                self.place_of_statement(number, frame)
            }
            kind if begins || self.begins_line(number, Some(kind)) => Place::new_line(frame.indent),
            _ => Place::Here,
        }
    }

    /// The place of what begins a statement.
    fn place_of_statement(&self, number: usize, frame: &Frame) -> Place {
        let word = self.tokens.keyword(number);
        if frame.is_controlled() {
            let is_else_if = word == Some(Keyword::MethodIf)
                && self.tokens.keyword_before(number) == Some(Keyword::MethodElse);
            if is_else_if || self.tokens.symbol(number) == Some(Symbol::OpenBrace) {
                return Place::Here;
            }
        }
        let is_label = matches!(word, Some(Keyword::MethodCase | Keyword::MethodDefault));
        if is_label && frame.kind == FrameKind::Body {
            return Place::new_line(frame.indent);
        }
        Place::new_line(frame.inner())
    }

    /// Whether a token begins a line in a frame, or outside of all.
    fn begins_line(&self, number: usize, kind: Option<FrameKind>) -> bool {
        let word = self.tokens.keyword(number);
        match kind {
            None => {
                word.is_some_and(begins_item)
                    && self.tokens.keyword_before(number) != Some(Keyword::Of)
            }
            Some(FrameKind::Item) => word.is_some_and(|word| Attr::begun_by(word).is_some()),
            Some(FrameKind::List) => self.begins_element(number, word),
            Some(FrameKind::Codes) => self.units.role(number) == Some(Role::Number),
            Some(FrameKind::Cases) => matches!(word, Some(Keyword::Case | Keyword::Default)),
            Some(_) => false,
        }
    }

    /// Whether a token begins an element directly behind another one, with nothing between them.
    fn begins_element(&self, number: usize, word: Option<Keyword>) -> bool {
        let before = self.units.role_before(number);
        let is_behind_element = matches!(
            before,
            Some(Role::Name | Role::Number | Role::String | Role::Close | Role::CloseMask)
        );
        is_behind_element
            && match self.units.role(number) {
                Some(Role::Name | Role::Number | Role::OpenBrace) => true,
                Some(Role::String) => before != Some(Role::String),
                Some(Role::Keyword) => matches!(word, Some(Keyword::If | Keyword::Select)),
                _ => false,
            }
    }
}

fn begins_item(word: Keyword) -> bool {
    matches!(
        word,
        Keyword::Variable
            | Keyword::Command
            | Keyword::Menu
            | Keyword::Collection
            | Keyword::Method
            | Keyword::Array
    )
}

/// The place of the token that closes a frame.
fn place_of_close(frame: &Frame) -> Place {
    match frame.kind {
        FrameKind::Arguments | FrameKind::Parts => Place::Here,
        _ => Place::Line {
            indent: frame.outer,
            comments: frame.inner(),
            keeps_blank_line: false,
        },
    }
}
