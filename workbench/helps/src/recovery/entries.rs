//! What a token stands in: an attribute, an entry of a list, or a statement.

use edd_lexer::token::{Token, TokenKind};
use edd_source::Outline;
use edd_source::tokens::{is_sign, is_word};
use edd_syntax::numbers::Attr;
use edd_syntax::symbols::{Keyword, Symbol};
use std::ops::Range;

/// How many braces are looked at around a token. The grammar takes no more inside one another.
const MOST_LEVELS: usize = 100;

/// The entries of a list of tokens.
pub(super) struct Entries<'a> {
    tokens: &'a [Token],
    outline: &'a Outline,
    /// By the number of a token whether it stands in parentheses, as far as its line goes.
    heads: Vec<bool>,
}

impl<'a> Entries<'a> {
    pub(super) fn of(tokens: &'a [Token], outline: &'a Outline) -> Entries<'a> {
        Entries {
            tokens,
            outline,
            heads: heads_of(tokens),
        }
    }

    /// The entry of the innermost braces around a token that have entries which end by `;` or `}`. None
    /// outside of braces.
    pub(super) fn around(&self, number: usize) -> Option<Range<usize>> {
        let mut number = number;
        for _ in 0..MOST_LEVELS {
            let braces = Braces::around(self, number)?;
            if braces.have_entries() {
                return braces.entry_at(number);
            }
            number = braces.open;
        }
        None
    }

    /// The entry in which the braces around an entry stand.
    pub(super) fn outside(&self, entry: &Range<usize>) -> Option<Range<usize>> {
        let open = self.outline.opened(self.tokens, entry.start)?;
        self.around(open)
    }
}

// Of each token whether it stands in parentheses, as in those of a `for`, as far as its line goes.
fn heads_of(tokens: &[Token]) -> Vec<bool> {
    let mut heads = Vec::with_capacity(tokens.len());
    let mut head = Head::default();
    let mut line = 0;
    for token in tokens {
        heads.push(head.is_open());
        if token.line != line {
            head = Head::default();
            line = token.line;
        }
        head.take(token.kind);
    }
    heads
}

/// What of a line stands before a token, behind the last brace.
#[derive(Default)]
struct Head {
    /// How many parentheses are open behind the last `for`.
    open: usize,
    /// Whether there is a `for` whose parentheses are not closed.
    is_for: bool,
}

impl Head {
    fn is_open(&self) -> bool {
        0 < self.open || self.is_for
    }

    fn take(&mut self, kind: TokenKind) {
        match kind {
            TokenKind::Keyword(Keyword::For) => {
                *self = Head {
                    open: 0,
                    is_for: true,
                };
            }
            TokenKind::Symbol(Symbol::OpenParenthesis) => self.open = self.open.saturating_add(1),
            TokenKind::Symbol(Symbol::CloseParenthesis) => match self.open.checked_sub(1) {
                Some(left) => self.open = left,
                None => self.is_for = false,
            },
            TokenKind::Symbol(Symbol::OpenBrace | Symbol::CloseBrace) => *self = Head::default(),
            _ => {}
        }
    }
}

/// Braces whose entries end by `;` or `}`.
struct Braces<'a> {
    entries: &'a Entries<'a>,
    tokens: &'a [Token],
    open: usize,
    close: usize,
}

// The token that closes what one opens; the end of the text where none does.
fn closing(tokens: &[Token], outline: &Outline, open: usize) -> usize {
    let outer = outline.opened(tokens, open);
    let is_closing = |number: &usize| {
        is_sign(tokens, *number, Symbol::CloseBrace) && outline.opened(tokens, *number) == outer
    };
    (open.saturating_add(1)..tokens.len())
        .find(is_closing)
        .unwrap_or(tokens.len())
}

impl<'a> Braces<'a> {
    // The innermost braces around a token, or those that it closes.
    fn around(entries: &'a Entries<'a>, number: usize) -> Option<Braces<'a>> {
        let (tokens, outline) = (entries.tokens, entries.outline);
        let open = match number.checked_sub(1) {
            Some(before) if is_sign(tokens, number, Symbol::CloseBrace) => {
                outline.open_behind(tokens, before)?
            }
            _ => outline.opened(tokens, number)?,
        };
        Some(Braces {
            entries,
            tokens,
            open,
            close: closing(tokens, outline, open),
        })
    }

    // Whether entries here end by `;`, or are attributes or statements.
    fn have_entries(&self) -> bool {
        let mut inside = self.open.saturating_add(1)..self.close;
        let is_item = self.opened(self.open).is_none();
        let before = self.open.saturating_sub(1);
        is_item
            || is_word(self.tokens, before, Keyword::Definition)
            || inside.any(|number| {
                self.is_here(number) && is_sign(self.tokens, number, Symbol::Semicolon)
            })
    }

    // The entry in which a token stands.
    fn entry_at(&self, number: usize) -> Option<Range<usize>> {
        // A sign that is missing at the end of an entry comes out at the beginning of the next one, or
        // at the brace behind it.
        let is_next = self.begins_attribute(number)
            && !self.ends_before(number)
            && !is_sign(self.tokens, number.saturating_add(1), Symbol::Semicolon);
        if number == self.close || is_next {
            let start = self.start_of(number.saturating_sub(1));
            return (start < number).then_some(start..number);
        }
        let start = self.start_of(number);
        Some(start..self.end_of(start, number))
    }

    fn kind(&self, number: usize) -> Option<TokenKind> {
        self.tokens.get(number).map(|token| token.kind)
    }

    fn is_here(&self, number: usize) -> bool {
        self.opened(number) == Some(self.open)
    }

    fn opened(&self, number: usize) -> Option<usize> {
        self.entries.outline.opened(self.tokens, number)
    }

    // Whether an entry may end before a token.
    fn ends_before(&self, number: usize) -> bool {
        let Some(before) = number.checked_sub(1) else {
            return true;
        };
        if before == self.open {
            return true;
        }
        let is_else = matches!(
            self.kind(number),
            Some(TokenKind::Keyword(Keyword::Else | Keyword::MethodElse))
        );
        match self.kind(before) {
            Some(TokenKind::Symbol(Symbol::Semicolon)) => {
                self.is_here(before) && !is_else && !self.is_in_head(before)
            }
            // The closing brace itself stands outside of its braces.
            Some(TokenKind::Symbol(Symbol::CloseBrace)) => {
                self.is_here(before) && self.may_begin(number) && !is_else
            }
            _ => false,
        }
    }

    // Whether what comes behind a `}` begins an entry, and does not go on with the one before.
    fn may_begin(&self, number: usize) -> bool {
        !matches!(
            self.kind(number),
            Some(TokenKind::Symbol(
                Symbol::Semicolon | Symbol::Comma | Symbol::OpenBrace
            ))
        )
    }

    fn begins_attribute(&self, number: usize) -> bool {
        match self.kind(number) {
            Some(TokenKind::Keyword(word)) => Attr::begun_by(word).is_some(),
            _ => false,
        }
    }

    // Where the entry begins in which a token is.
    fn start_of(&self, number: usize) -> usize {
        let first = self.open.saturating_add(1);
        (first..=number)
            .rev()
            .find(|place| self.is_here(*place) && self.ends_before(*place))
            .unwrap_or(first)
    }

    // Where an entry ends that begins at a token and holds another one.
    fn end_of(&self, start: usize, number: usize) -> usize {
        // A `;` that does not fit ends nothing where the line goes on.
        let is_astray = is_sign(self.tokens, number, Symbol::Semicolon)
            && start < number
            && !self.begins_line(number.saturating_add(1))
            && !self.begins_entry(number.saturating_add(1));
        let first = number.saturating_add(if is_astray { 2 } else { 1 });
        let ends = |place: &usize| {
            self.is_here(*place)
                && (self.ends_before(*place)
                    || self.begins_attribute(*place) && self.begins_line(*place))
        };
        (first..self.close).find(ends).unwrap_or(self.close)
    }

    // Whether a token begins an attribute or a statement, as far as it and the next one show it.
    fn begins_entry(&self, number: usize) -> bool {
        match (self.kind(number), self.kind(number.saturating_add(1))) {
            (Some(TokenKind::Keyword(_) | TokenKind::Symbol(Symbol::CloseBrace)), _) => true,
            (Some(TokenKind::Name), Some(TokenKind::Symbol(sign))) => matches!(
                sign,
                Symbol::Equals
                    | Symbol::CompoundAssign(_)
                    | Symbol::Increment
                    | Symbol::Decrement
                    | Symbol::OpenParenthesis
            ),
            _ => false,
        }
    }

    fn begins_line(&self, number: usize) -> bool {
        let line = |number: usize| self.tokens.get(number).map(|token| token.line);
        line(number) != line(number.saturating_sub(1))
    }

    fn is_in_head(&self, number: usize) -> bool {
        self.entries.heads.get(number).copied().unwrap_or_default()
    }
}
