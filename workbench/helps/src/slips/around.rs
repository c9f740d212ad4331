//! The tokens around the one that does not fit.

use super::{Placed, Slip};
use edd_lexer::token::{Token, TokenKind};
use edd_source::Span;
use edd_source::tokens::{is_sign, item_kind, word_of};
use edd_syntax::symbols::{Keyword, Symbol};

/// How many tokens are looked at for where a statement begins.
const LONGEST: usize = 64;

/// A text, its tokens, the number of the one that does not fit, and that of the first one of its
/// line.
#[derive(Clone, Copy)]
pub(crate) struct At<'a> {
    pub(crate) text: &'a [u8],
    pub(crate) tokens: &'a [Token],
    pub(crate) number: usize,
    pub(crate) first: usize,
}

/// The tokens around the one that does not fit.
#[derive(Clone, Copy)]
pub(crate) struct Around<'a> {
    pub(crate) at: At<'a>,
    pub(crate) token: &'a Token,
    pub(crate) before: &'a Token,
}

pub(crate) fn on(token: &Token, slip: Slip) -> Option<Placed> {
    let place = Span::of(token);
    Some(Placed { place, slip })
}

pub(crate) fn is_symbol(token: &Token, symbol: Symbol) -> bool {
    token.kind == TokenKind::Symbol(symbol)
}

pub(crate) fn is_keyword(token: &Token, word: Keyword) -> bool {
    token.kind == TokenKind::Keyword(word)
}

pub(crate) fn is_integer(token: &Token) -> bool {
    matches!(token.kind, TokenKind::Integer(_))
}

pub(crate) fn is_joined(before: &Token, token: &Token) -> bool {
    before.end == token.start
}

impl<'a> At<'a> {
    /// The token that does not fit.
    pub(crate) fn token(&self) -> Option<&'a Token> {
        self.tokens.get(self.number)
    }

    /// The token so many places before it.
    pub(crate) fn back(&self, count: usize) -> Option<&'a Token> {
        self.tokens.get(self.number.checked_sub(count)?)
    }

    /// The token after it.
    pub(crate) fn ahead(&self) -> Option<&'a Token> {
        self.tokens.get(self.number.saturating_add(1))
    }

    /// What the token so many places before it is.
    pub(crate) fn kind_back(&self, count: usize) -> Option<TokenKind> {
        Some(self.back(count)?.kind)
    }

    /// Whether the token so many places before it is this sign.
    pub(crate) fn is_back(&self, count: usize, sign: Symbol) -> bool {
        self.kind_back(count) == Some(TokenKind::Symbol(sign))
    }

    /// Whether the token after it is this sign.
    pub(crate) fn is_ahead(&self, sign: Symbol) -> bool {
        self.ahead().is_some_and(|token| is_symbol(token, sign))
    }

    /// Whether it is in the body of a method: the last DEFINITION is after the last word of an item.
    /// Words of items stand in no body.
    pub(crate) fn is_in_body(&self) -> bool {
        let before = self.tokens.get(..self.number).unwrap_or_default();
        let last = before
            .iter()
            .rfind(|token| is_keyword(token, Keyword::Definition) || item_kind(token).is_some());
        last.is_some_and(|token| is_keyword(token, Keyword::Definition))
    }
}

impl<'a> Around<'a> {
    pub(crate) fn of(at: At<'a>) -> Option<Around<'a>> {
        Some(Around {
            at,
            token: at.token()?,
            before: at.back(1)?,
        })
    }

    /// Whether the token that does not fit is this sign.
    pub(crate) fn is(&self, sign: Symbol) -> bool {
        is_symbol(self.token, sign)
    }

    /// Whether the token before it is this sign.
    pub(crate) fn follows(&self, sign: Symbol) -> bool {
        is_symbol(self.before, sign)
    }

    /// Whether both are on one line.
    pub(crate) fn is_on_line(&self) -> bool {
        self.before.line == self.token.line
    }

    /// A slip at the token that does not fit.
    pub(crate) fn here(&self, slip: Slip) -> Option<Placed> {
        on(self.token, slip)
    }

    /// A slip at the token before it.
    pub(crate) fn on_before(&self, slip: Slip) -> Option<Placed> {
        on(self.before, slip)
    }

    /// A slip right after the token before it.
    pub(crate) fn behind(&self, slip: Slip) -> Option<Placed> {
        let place = Span::behind(self.before);
        Some(Placed { place, slip })
    }

    pub(crate) fn word(&self, token: &Token) -> &'a str {
        word_of(self.at.text, token)
    }

    /// The number of the token with which the statement begins that holds the one before.
    pub(crate) fn statement(&self) -> usize {
        let mut first = self.at.number.saturating_sub(1);
        for _ in 0..LONGEST {
            let Some(before) = first.checked_sub(1) else {
                break;
            };
            let ends = matches!(
                self.at.tokens.get(before).map(|token| token.kind),
                Some(TokenKind::Symbol(
                    Symbol::Semicolon | Symbol::OpenBrace | Symbol::CloseBrace
                ))
            );
            if ends {
                break;
            }
            first = before;
        }
        first
    }

    /// The tokens of that statement up to the one before.
    pub(crate) fn so_far(&self) -> &'a [Token] {
        self.at
            .tokens
            .get(self.statement()..self.at.number)
            .unwrap_or_default()
    }

    /// Whether that statement begins with the token before.
    pub(crate) fn is_second(&self) -> bool {
        self.statement().saturating_add(1) == self.at.number
    }

    /// The number of the sign that opens what the token before closes.
    pub(crate) fn opening(&self, pair: Pair) -> Option<usize> {
        opened(self.at.tokens, self.at.number.checked_sub(1)?, 0, pair)
    }

    /// The word before the parentheses that the token before closes.
    pub(crate) fn word_before(&self) -> Option<&'a Token> {
        word_before(self.at.tokens, self.at.number.checked_sub(1)?)
    }
}

/// Two signs between which others stand: one opens, the other closes.
pub(crate) type Pair = (Symbol, Symbol);

pub(crate) const PARENTHESES: Pair = (Symbol::OpenParenthesis, Symbol::CloseParenthesis);

pub(crate) const BRACKETS: Pair = (Symbol::OpenBracket, Symbol::CloseBracket);

pub(crate) const BRACES: Pair = (Symbol::OpenBrace, Symbol::CloseBrace);

/// The number of the last sign before the token of a number that opens and is not closed before it,
/// from another number on.
pub(crate) fn opened(tokens: &[Token], number: usize, from: usize, pair: Pair) -> Option<usize> {
    let (opens, closes) = pair;
    let mut closed: usize = 0;
    for place in (from..number).rev() {
        if is_sign(tokens, place, closes) {
            closed = closed.saturating_add(1);
        } else if is_sign(tokens, place, opens) {
            if closed == 0 {
                return Some(place);
            }
            closed = closed.saturating_sub(1);
        }
    }
    None
}

/// The number of the parenthesis that the token of a number closes.
pub(crate) fn opening_parenthesis(tokens: &[Token], closing: usize) -> Option<usize> {
    if !is_sign(tokens, closing, Symbol::CloseParenthesis) {
        return None;
    }
    opened(tokens, closing, 0, PARENTHESES)
}

/// The word before the parentheses that the token of a number closes.
pub(crate) fn word_before(tokens: &[Token], closing: usize) -> Option<&Token> {
    if !is_sign(tokens, closing, Symbol::CloseParenthesis) {
        return None;
    }
    let open = opened(tokens, closing, 0, PARENTHESES)?;
    tokens.get(open.checked_sub(1)?)
}

/// The number of the innermost brace that is open before the token of a number.
pub(crate) fn open_brace(tokens: &[Token], number: usize) -> Option<usize> {
    opened(tokens, number, 0, BRACES)
}

/// The number of the last parenthesis before a token that is not closed, also across the `;` of a `for`.
pub(crate) fn parenthesis_open_at(at: At<'_>) -> Option<usize> {
    let mut closed: usize = 0;
    for count in 1..=LONGEST {
        let number = at.number.checked_sub(count)?;
        if is_sign(at.tokens, number, Symbol::CloseParenthesis) {
            closed = closed.saturating_add(1);
        } else if is_sign(at.tokens, number, Symbol::OpenParenthesis) {
            if closed == 0 {
                return Some(number);
            }
            closed = closed.saturating_sub(1);
        } else if is_sign(at.tokens, number, Symbol::OpenBrace) {
            return None;
        }
    }
    None
}

/// The last parenthesis of the statement before a token that is not closed.
pub(crate) fn open_parenthesis(at: At<'_>) -> Option<Span> {
    open_sign(at, PARENTHESES)
}

/// The last bracket of the statement before a token that is not closed.
pub(crate) fn open_bracket(at: At<'_>) -> Option<Span> {
    open_sign(at, BRACKETS)
}

fn open_sign(at: At<'_>, pair: Pair) -> Option<Span> {
    let from = Around::of(at)?.statement();
    let open = opened(at.tokens, at.number, from, pair)?;
    at.tokens.get(open).map(Span::of)
}
