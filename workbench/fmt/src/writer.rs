//! Writes tokens, comments and line ends.

use crate::comments::{Comment, CommentKind};
use crate::frames::{Frame, INDENT};
use crate::places::Place;
use crate::tokens::Tokens;
use crate::units::{Unit, Units, count_columns};
use edd_syntax::symbols::{Keyword, Symbol};

/// The most bytes of a source. A layout that gets longer is given up.
const MOST_BYTES: usize = 1_048_576;

/// What the next token does.
#[derive(Clone, Copy, Debug, PartialEq, Eq)]
pub(crate) enum Following {
    /// It goes on what is begun.
    Inside,
    /// It begins an item, an attribute, an element or a statement.
    Begins,
    /// It is the `else` of an `if`, or the `while` of a `do`.
    GoesOn,
}

/// How the comments before a token left the line.
#[derive(Clone, Copy, Default)]
struct Reached {
    /// The line has to end, since a comment reaches up to its end.
    must_end: bool,
    /// A line has ended since the last token.
    has_ended: bool,
}

/// The layout as far as it is written.
pub(crate) struct Writer<'t, 'a> {
    pub(crate) tokens: &'t Tokens<'a>,
    pub(crate) units: &'t Units<'a>,
    out: String,
    /// The columns of the line so far.
    pub(crate) column: usize,
    /// The column at which the last token began.
    pub(crate) token_column: usize,
    pub(crate) frames: Vec<Frame>,
    /// The columns before the line that has begun last.
    pub(crate) base: usize,
    /// Up to the token of this number all are on the line.
    pub(crate) joined_until: usize,
    pub(crate) following: Following,
    /// The column of strings that stand below each other.
    pub(crate) strings: Option<usize>,
}

impl<'t, 'a> Writer<'t, 'a> {
    pub(crate) fn new(tokens: &'t Tokens<'a>, units: &'t Units<'a>) -> Writer<'t, 'a> {
        Writer {
            tokens,
            units,
            out: String::new(),
            column: 0,
            token_column: 0,
            frames: Vec::new(),
            base: 0,
            joined_until: 0,
            following: Following::Begins,
            strings: None,
        }
    }

    /// Writes the whole text, unless it gets longer than a source may be.
    pub(crate) fn write_all(mut self) -> Option<String> {
        let end = self.tokens.len();
        for number in 0..end {
            let unit = self.units.get(number)?;
            self.leave_statements(number);
            let place = self.find_place(number);
            self.write_unit(number, unit, place);
            self.step(number);
            if self.is_too_long() {
                return None;
            }
        }
        let indent = self.frames.last().map_or(0, Frame::inner);
        self.write_comments(end, Place::new_line(indent));
        if !self.out.is_empty() {
            self.out.push('\n');
        }
        (!self.is_too_long()).then_some(self.out)
    }

    fn is_too_long(&self) -> bool {
        self.out.len() > MOST_BYTES
    }

    fn write_unit(&mut self, number: usize, unit: &Unit<'_>, place: Place) {
        let reached = self.write_comments(number, place);
        self.go_to(number, unit, place, reached);
        if let Place::Line { indent, .. } = place {
            self.base = indent;
        }
        self.token_column = self.column;
        self.push(unit.text);
    }

    /// Writes the comments and marks before a token.
    fn write_comments(&mut self, number: usize, place: Place) -> Reached {
        let column = match place {
            Place::Line { comments, .. } => comments,
            Place::Below(column) => column,
            Place::Here => self.continued_column(number),
        };
        let is_line = matches!(place, Place::Line { .. });
        let is_behind_brace = self.is_behind_brace(number);
        let mut reached = Reached::default();
        let units = self.units;
        for comment in &units.gap(number).comments {
            if self.is_too_long() {
                break;
            }
            let keeps_blank_line = is_line && (reached.has_ended || !is_behind_brace);
            self.write_comment(comment, column, keeps_blank_line, &mut reached);
        }
        reached
    }

    fn write_comment(
        &mut self,
        comment: &Comment<'_>,
        column: usize,
        keeps_blank_line: bool,
        reached: &mut Reached,
    ) {
        let is_mark = comment.kind == CommentKind::Mark;
        if is_mark || reached.must_end || comment.lines > 0 || self.out.is_empty() {
            reached.has_ended = true;
            let column = if is_mark { 0 } else { column };
            self.end_line(keeps_blank_line && comment.lines > 1, column);
        } else {
            self.push_blank();
        }
        reached.must_end = comment.kind != CommentKind::Block;
        // A CR before a line's end is part of the end.
        for (count, line) in comment.text.split('\n').enumerate() {
            if count > 0 {
                self.push("\n");
            }
            self.push(line.trim_end_matches('\r'));
        }
    }

    /// Goes to where a token stands, behind the comments before it.
    fn go_to(&mut self, number: usize, unit: &Unit<'_>, place: Place, reached: Reached) {
        let has_comments = !unit.gap.comments.is_empty();
        let lines = unit.gap.lines;
        // A comment that stands before the token on its line stays there.
        let is_led = reached.has_ended && !reached.must_end && lines == 0;
        match place {
            Place::Below(_) | Place::Line { .. } if is_led => self.push_blank(),
            Place::Below(column) => self.end_line(false, column),
            Place::Line {
                indent,
                keeps_blank_line,
                ..
            } => {
                let is_first = !reached.has_ended && self.is_behind_brace(number);
                self.end_line(keeps_blank_line && !is_first && lines > 1, indent);
            }
            Place::Here if reached.must_end || (has_comments && lines > 0) => {
                self.end_line(false, self.continued_column(number));
            }
            Place::Here if unit.touches && (!has_comments || self.is_separator(number)) => {}
            Place::Here => self.push_blank(),
        }
    }

    /// The column at which a line goes on that a comment has ended.
    fn continued_column(&self, number: usize) -> usize {
        let goes_on = self.following != Following::Inside
            || self.tokens.symbol(number) == Some(Symbol::OpenBrace)
            || self.tokens.keyword(number) == Some(Keyword::Else);
        if goes_on {
            self.base
        } else {
            self.base.saturating_add(INDENT)
        }
    }

    /// Whether nothing but a brace that opens, or the text's beginning, is before a token.
    fn is_behind_brace(&self, number: usize) -> bool {
        number == 0 || self.tokens.symbol_before(number) == Some(Symbol::OpenBrace)
    }

    pub(crate) fn is_separator(&self, number: usize) -> bool {
        matches!(
            self.tokens.symbol(number),
            Some(Symbol::Semicolon | Symbol::Comma)
        )
    }

    /// Ends the line, and begins the next one at a column. No line ends before the first.
    fn end_line(&mut self, with_blank_line: bool, column: usize) {
        if self.out.is_empty() {
            return;
        }
        self.push(if with_blank_line { "\n\n" } else { "\n" });
        self.out.extend(std::iter::repeat_n(' ', column));
        self.column = column;
    }

    fn push_blank(&mut self) {
        if !self.out.is_empty() {
            self.push(" ");
        }
    }

    fn push(&mut self, text: &str) {
        self.out.push_str(text);
        self.column = match text.rsplit_once('\n') {
            Some((_, last)) => count_columns(last),
            None => self.column.saturating_add(count_columns(text)),
        };
    }
}
