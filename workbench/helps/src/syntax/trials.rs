//! Changes of the token that does not fit, of which the best one is what helps.

use super::candidates::{
    BEFORE, BEHIND, is_option, missing_before, nearest_word, signs_for, word_for,
};
use super::change::{Change, Workshop};
use crate::slips::{At, is_symbol};
use edd_lexer::token::{Token, TokenKind};
use edd_source::tokens::{is_sign, item_kind, word_of};
use edd_syntax::operators::{Builtin, Comparison, Operator};
use edd_syntax::symbols::{Keyword, Symbol};

/// How many tokens behind one are looked at for the `]` that closes.
const FARTHEST: usize = 16;

/// Changes of a token that are tried: the best one so far, and the token at which the text is
/// refused then. Of changes that get as far it is the first one.
struct Trials<'a, 'w> {
    at: At<'a>,
    workshop: &'w mut Workshop,
    best: Option<Change>,
    reached: usize,
}

/// The change with which the text gets farthest, if one leads past the token after it.
pub(super) fn best_change(at: At<'_>, token: &Token, workshop: &mut Workshop) -> Option<Change> {
    let mut trials = Trials::past(at, workshop, last_near(at));
    trials.attempt_all(token);
    trials.best
}

/// The word or the sign that is meant by a token, if it leads past the two after it and past the one
/// that does not fit.
pub(super) fn best_word(
    at: At<'_>,
    token: &Token,
    misfit: usize,
    workshop: &mut Workshop,
) -> Option<Change> {
    let number = at.number.saturating_add(1);
    let near = last_near(At { number, ..at });
    let mut trials = Trials::past(at, workshop, near.max(misfit));
    trials.attempt_words(token);
    trials.attempt_signs(token);
    trials.best
}

/// Whether the text leads past the token that does not fit without a token before it, which is a
/// bracket that is there twice, or a `;` or a brace before ELSE.
pub(super) fn is_too_many(at: At<'_>, misfit: &Token, workshop: &mut Workshop) -> bool {
    let (Some(before), Some(token)) = (at.kind_back(1), at.token()) else {
        return false;
    };
    let is_before_else = misfit.kind == TokenKind::Keyword(Keyword::Else)
        && matches!(
            token.kind,
            TokenKind::Symbol(Symbol::Semicolon | Symbol::CloseBrace)
        );
    let is_twice = token.kind == before
        && match token.kind {
            TokenKind::Symbol(Symbol::OpenParenthesis | Symbol::OpenBrace) => true,
            TokenKind::Symbol(Symbol::CloseBrace) => {
                let behind = at.tokens.get(at.number.saturating_add(2));
                let goes_on = behind.is_some_and(|next| !is_symbol(next, Symbol::CloseBrace));
                goes_on && is_symbol(misfit, Symbol::Comma)
            }
            _ => false,
        };
    let past = at.number.saturating_add(1);
    (is_before_else || is_twice) && past < workshop.reached(at.number, Change::LeaveOut)
}

/// Whether the text leads past a parenthesis, and the brace behind it, with an IF before it.
pub(super) fn wants_if(at: At<'_>, workshop: &mut Workshop) -> bool {
    let behind = at.tokens.get(at.number..).unwrap_or_default();
    let brace = behind
        .iter()
        .position(|token| is_symbol(token, Symbol::OpenBrace));
    let past = brace.map(|brace| at.number.saturating_add(brace));
    past.is_some_and(|past| past < workshop.reached(at.number, Change::Missing("IF", "IF")))
}

/// Whether a text fits in place of a name that does not.
pub(super) fn wants_text(at: At<'_>, token: &Token, workshop: &mut Workshop) -> bool {
    let mut trials = Trials::past(at, workshop, at.number);
    if at.kind_back(1) != Some(TokenKind::String) {
        trials.attempt_kinds(token);
    }
    matches!(trials.best, Some(Change::Quoted))
}

// The last token that a change has to lead past: the one after this one, or the text's end,
// unless that token is on another line.
fn last_near(at: At<'_>) -> usize {
    match (at.token(), at.ahead()) {
        (Some(token), Some(behind)) if token.line != behind.line => at.number,
        _ => at.number.saturating_add(1),
    }
}

impl<'a, 'w> Trials<'a, 'w> {
    // No trials so far. What helps has to lead past a token.
    fn past(at: At<'a>, workshop: &'w mut Workshop, number: usize) -> Trials<'a, 'w> {
        Trials {
            at,
            workshop,
            best: None,
            reached: number,
        }
    }

    // Tries a change, which has to lead past the token after it where the token is left out.
    fn attempt(&mut self, change: Change) {
        let reached = self.workshop.reached(self.at.number, change);
        let next = self.at.number.saturating_add(1);
        let is_near = matches!(change, Change::LeaveOut) && reached <= next;
        if self.reached < reached && !is_near {
            self.reached = reached;
            self.best = Some(change);
        }
    }

    // Tries the words that may be meant by a word.
    fn attempt_words(&mut self, token: &Token) {
        if !matches!(token.kind, TokenKind::Name | TokenKind::Keyword(_)) {
            return;
        }
        let word = word_of(self.at.text, token);
        match word_for(word) {
            Some("") => self.attempt(Change::LeaveOut),
            Some(other) => self.attempt(Change::Instead(other)),
            None => {}
        }
        if let Some(near) = nearest_word(word) {
            self.attempt(Change::Instead(near));
        }
    }

    // Tries the signs that may be meant by a sign.
    fn attempt_signs(&mut self, token: &Token) {
        // Behind a name a point is that of a member.
        let is_of_member =
            is_symbol(token, Symbol::Dot) && self.at.kind_back(1) == Some(TokenKind::Name);
        if is_of_member {
            return;
        }
        for sign in signs_for(token.kind) {
            self.attempt(Change::Instead(sign));
        }
    }

    // Tries what may be missing before the token.
    fn attempt_missing(&mut self, token: &Token) {
        let before = self.at.kind_back(1);
        // A value that is put before an operator would be its first operand.
        let is_operator = matches!(
            token.kind,
            TokenKind::Symbol(Symbol::Operator(_) | Symbol::Comparison(_))
        );
        if is_operator && matches!(before, Some(TokenKind::Keyword(_))) {
            return;
        }
        for (spelling, called) in missing_before(before, token.kind, word_of(self.at.text, token)) {
            self.attempt(Change::Missing(spelling, called));
        }
    }

    // Tries the token as a text, or as a name where it is a reserved word.
    fn attempt_kinds(&mut self, token: &Token) {
        match token.kind {
            TokenKind::Keyword(_) => self.attempt(Change::Renamed),
            TokenKind::Name => self.attempt(Change::Quoted),
            _ => {}
        }
    }

    // Tries all changes of a token.
    fn attempt_all(&mut self, token: &Token) {
        self.attempt_words(token);
        for sign in BEHIND {
            self.attempt(Change::Behind(sign));
        }
        if closes_mask(self.at) {
            self.attempt(Change::Behind(">"));
        }
        if is_between_words(self.at) {
            self.attempt(Change::Behind("&"));
            self.attempt(Change::Instead("&"));
        }
        // Of two that lead as far `,` is nearer to `;` than nothing.
        if is_symbol(token, Symbol::Semicolon) {
            self.attempt_signs(token);
        }
        if is_idle(self.at, token) {
            self.attempt(Change::LeaveOut);
        }
        self.attempt_signs(token);
        let are_values = parts_values(self.at, token);
        for sign in BEFORE {
            let may_part = match sign {
                "(" => false,
                "[" => closes_bracket(self.at),
                _ => true,
            };
            if may_part || !are_values {
                self.attempt(Change::Before(sign));
            }
        }
        self.attempt_missing(token);
        self.attempt_kinds(token);
    }
}

/// Whether the text leads past the token that does not fit, and the one behind it, with an ELSE before a
/// brace.
pub(super) fn wants_else(at: At<'_>, misfit: usize, workshop: &mut Workshop) -> bool {
    let reached = workshop.reached(at.number, Change::Missing("ELSE", "ELSE"));
    misfit.saturating_add(1) < reached
}

// Whether the token and the one before it are values, so that no `(` is missing between them but an
// operator.
fn parts_values(at: At<'_>, token: &Token) -> bool {
    let is_value = match token.kind {
        TokenKind::Name => !is_option(word_of(at.text, token)),
        kind => matches!(
            kind,
            TokenKind::Integer(_) | TokenKind::Decimal | TokenKind::String
        ),
    };
    let is_after_value = at.back(1).is_some_and(|before| match before.kind {
        TokenKind::Name => Builtin::named(word_of(at.text, before)).is_none(),
        kind => matches!(
            kind,
            TokenKind::Integer(_)
                | TokenKind::Decimal
                | TokenKind::Symbol(Symbol::CloseParenthesis | Symbol::CloseBracket)
        ),
    });
    is_value && is_after_value
}

// Whether a `]` stands behind the token in its statement.
fn closes_bracket(at: At<'_>) -> bool {
    let behind = at.tokens.get(at.number..).unwrap_or_default().iter();
    let mut signs = behind.take(FARTHEST).filter_map(|token| match token.kind {
        TokenKind::Symbol(sign) => Some(sign),
        _ => None,
    });
    let ends = |sign: &Symbol| {
        matches!(
            sign,
            Symbol::CloseBracket | Symbol::Semicolon | Symbol::OpenBrace | Symbol::CloseBrace
        )
    };
    signs.find(ends) == Some(Symbol::CloseBracket)
}

// Whether a value has to come after a token of this kind.
fn is_operator(kind: Option<TokenKind>) -> bool {
    matches!(
        kind,
        Some(TokenKind::Symbol(
            Symbol::Operator(_)
                | Symbol::Comparison(_)
                | Symbol::CompoundAssign(_)
                | Symbol::Equals
                | Symbol::LogicalAnd
                | Symbol::LogicalOr
                | Symbol::Question,
        ))
    )
}

// Whether a token is a sign without a value of its own: it may be one too many.
fn is_idle(at: At<'_>, token: &Token) -> bool {
    let before = at.kind_back(1);
    let is_type = matches!(
        before,
        Some(TokenKind::Keyword(Keyword::Int | Keyword::Long))
    );
    if is_operator(before) || is_type {
        return false;
    }
    match token.kind {
        TokenKind::Symbol(
            Symbol::Semicolon
            | Symbol::Comma
            | Symbol::OpenBrace
            | Symbol::CloseBrace
            | Symbol::OpenParenthesis
            | Symbol::CloseParenthesis
            | Symbol::OpenBracket
            | Symbol::CloseBracket,
        ) => true,
        // As after the word of an attribute, where other languages have them.
        TokenKind::Symbol(Symbol::Equals | Symbol::Colon) => {
            matches!(before, Some(TokenKind::Keyword(_)))
                || at.back(2).is_some_and(|token| item_kind(token).is_some())
        }
        _ => false,
    }
}

// Whether a token comes after a mask that is not closed, as in `name < 3`.
fn closes_mask(at: At<'_>) -> bool {
    let less = Symbol::Comparison(Comparison::Less);
    matches!(at.kind_back(1), Some(TokenKind::Integer(_)))
        && is_sign(at.tokens, at.number.saturating_sub(2), less)
        && !at.is_in_body()
}

// Whether a token is among the words of CLASS or HANDLING, which `&` joins.
fn is_between_words(at: At<'_>) -> bool {
    if at
        .back(1)
        .is_some_and(|before| matches!(word_of(at.text, before), "READ" | "WRITE"))
    {
        return true;
    }
    let before = at.tokens.get(..at.number).unwrap_or_default();
    let is_joined = |token: &&Token| {
        let and = Symbol::Operator(Operator::And);
        token.kind == TokenKind::Name || is_symbol(token, and)
    };
    let count = before.iter().rev().take_while(is_joined).count();
    let word = at.kind_back(count.saturating_add(1));
    0 < count
        && matches!(
            word,
            Some(TokenKind::Keyword(Keyword::Class | Keyword::Handling))
        )
}
