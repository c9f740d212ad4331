//! All that the layout of a token depends on.

use crate::comments::Gap;
use crate::roles::{Role, RoleReader};
use crate::spacing::touches;
use crate::tokens::Tokens;
use edd_lexer::token::TokenKind;

/// A token, measured as if all tokens and comments were on one line.
pub(crate) struct Unit<'a> {
    pub(crate) text: &'a str,
    pub(crate) role: Role,
    /// It is written directly after the token before.
    pub(crate) touches: bool,
    /// What stands before it.
    pub(crate) gap: Gap<'a>,
    /// The columns from the beginning of the text up to its end.
    pub(crate) end: usize,
    /// How many line ends can't be left out from the beginning of the text up to its end.
    pub(crate) line_ends: usize,
}

/// The tokens of a text in their order.
pub(crate) struct Units<'a> {
    units: Vec<Unit<'a>>,
    /// What stands behind the last token.
    last_gap: Gap<'a>,
}

impl<'a> Units<'a> {
    pub(crate) fn read(tokens: &Tokens<'a>) -> Units<'a> {
        let mut roles = RoleReader::new(tokens);
        let mut measure = Measure::default();
        let mut before = None;
        let mut units = Vec::with_capacity(tokens.len());
        for number in 0..tokens.len() {
            let Some(kind) = tokens.kind(number) else {
                break;
            };
            let role = roles.read(number, kind);
            let unit = read_unit(tokens, number, role, before, &mut measure);
            units.push(unit);
            before = Some((kind, role));
        }
        Units {
            units,
            last_gap: Gap::read(tokens.gap_before(tokens.len())),
        }
    }

    pub(crate) fn get(&self, number: usize) -> Option<&Unit<'a>> {
        self.units.get(number)
    }

    pub(crate) fn role(&self, number: usize) -> Option<Role> {
        Some(self.units.get(number)?.role)
    }

    /// The role of the token before that of a number.
    pub(crate) fn role_before(&self, number: usize) -> Option<Role> {
        self.role(number.checked_sub(1)?)
    }

    /// What stands before a token, or before the text's end.
    pub(crate) fn gap(&self, number: usize) -> &Gap<'a> {
        match self.units.get(number) {
            Some(unit) => &unit.gap,
            None => &self.last_gap,
        }
    }
}

fn read_unit<'a>(
    tokens: &Tokens<'a>,
    number: usize,
    role: Role,
    before: Option<(TokenKind, Role)>,
    measure: &mut Measure,
) -> Unit<'a> {
    let text = tokens.text(number);
    let gap = Gap::read(tokens.gap_before(number));
    let touches = before.is_some_and(|before| touches(before, role, text));
    measure.add_gap(&gap, touches);
    measure.add(count_columns(text), text.contains('\n'));
    Unit {
        text,
        role,
        touches,
        gap,
        end: measure.end,
        line_ends: measure.line_ends,
    }
}

/// The columns that a text of one line takes.
pub(crate) fn count_columns(text: &str) -> usize {
    text.chars().count()
}

#[derive(Default)]
struct Measure {
    end: usize,
    line_ends: usize,
}

impl Measure {
    /// Adds what is between two tokens: a blank before each comment and behind the last one.
    fn add_gap(&mut self, gap: &Gap<'_>, touches: bool) {
        for comment in &gap.comments {
            self.add(1, false);
            self.add(count_columns(comment.text), comment.ends_line());
        }
        if !gap.comments.is_empty() {
            self.add(1, gap.lines > 0);
        } else if !touches {
            self.add(1, false);
        }
    }

    fn add(&mut self, columns: usize, ends_line: bool) {
        self.end = self.end.saturating_add(columns);
        self.line_ends = self.line_ends.saturating_add(usize::from(ends_line));
    }
}
