//! What is open at a place, and how its lines are laid out.

use crate::tokens::Tokens;
use edd_syntax::symbols::Keyword;

/// The columns by which lines in braces begin further to the right.
pub(crate) const INDENT: usize = 4;

/// What stands under a word of a method without being part of its line.
#[derive(Clone, Copy, Debug, PartialEq, Eq)]
pub(crate) enum Control {
    If,
    Do,
    /// What follows an `else`, a loop or a `switch`.
    Other,
}

#[derive(Clone, Copy, Debug, PartialEq, Eq)]
pub(crate) enum FrameKind {
    /// The braces of an item: a line for each attribute.
    Item,
    /// The braces round statements: a line for each.
    Body,
    /// Elements that commas or semicolons part, or nothing.
    List,
    /// Members of a collection or elements of an array, which end with semicolons.
    Records,
    /// Response codes, each of which begins with a number.
    Codes,
    /// The cases of a SELECT.
    Cases,
    /// Parentheses or brackets that are longer than a line: a line for each argument.
    Arguments,
    /// The parentheses of a `for`.
    Parts,
    /// The statement under a word.
    Controlled(Control),
}

impl FrameKind {
    /// The kind of braces by the word before them and what is around.
    pub(crate) fn of_braces(tokens: &Tokens<'_>, brace: usize, around: Option<FrameKind>) -> Self {
        match around {
            None => return FrameKind::Item,
            Some(FrameKind::Body | FrameKind::Controlled(_)) => return FrameKind::Body,
            Some(_) => {}
        }
        match tokens.keyword_before(brace) {
            Some(Keyword::Definition) => FrameKind::Body,
            Some(Keyword::ResponseCodes) => FrameKind::Codes,
            Some(Keyword::Members | Keyword::Elements) => FrameKind::Records,
            _ if is_behind_select(tokens, brace) => FrameKind::Cases,
            _ => FrameKind::List,
        }
    }
}

fn is_behind_select(tokens: &Tokens<'_>, brace: usize) -> bool {
    brace
        .checked_sub(1)
        .and_then(|close| tokens.header_keyword(close))
        == Some(Keyword::Select)
}

/// What is open, with more than one line.
#[derive(Clone, Copy, Debug)]
pub(crate) struct Frame {
    pub(crate) kind: FrameKind,
    /// The number of the token that closes it; of a statement there is none.
    pub(crate) close: Option<usize>,
    /// The columns before its lines, after a label not counted.
    pub(crate) indent: usize,
    /// The columns before the line on which it begins.
    pub(crate) outer: usize,
    /// A label stands before the statements.
    pub(crate) is_labelled: bool,
}

impl Frame {
    /// The columns before a statement or another line in the frame.
    pub(crate) fn inner(&self) -> usize {
        if self.is_labelled || self.is_controlled() {
            self.indent.saturating_add(INDENT)
        } else {
            self.indent
        }
    }

    pub(crate) fn is_controlled(&self) -> bool {
        matches!(self.kind, FrameKind::Controlled(_))
    }
}
