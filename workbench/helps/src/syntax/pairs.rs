//! Brackets of two kinds that open and close the same.

use super::SyntaxHelp;
use crate::Finding;
use crate::slips::{At, is_qualifier};
use edd_lexer::token::{Token, TokenKind};
use edd_source::tokens::{is_word, word_of};
use edd_source::{Confidence, Span};
use edd_syntax::operators::Builtin;
use edd_syntax::symbols::{Keyword, Symbol};

/// How many tokens are looked at for the other one of a pair.
const LONGEST: usize = 64;

/// Says that another bracket is meant by the one that opens around the token that does not fit, where
/// the one that closes shows it. Returns whether it is so.
pub(super) fn say_other_bracket(at: At<'_>, finding: &mut Finding) -> bool {
    let Some((token, meant)) = other_bracket(at) else {
        return false;
    };
    finding.span = Some(Span::of(token));
    let fix = finding.replacement(meant, Confidence::Guess);
    let word = word_of(at.text, token).to_owned();
    finding.propose(SyntaxHelp::Instead { meant, word }, fix);
    true
}

// The bracket that opens and is another one than it has to be, and the one that it has to be.
fn other_bracket(at: At<'_>) -> Option<(&Token, &'static str)> {
    let number = open_around(at)?;
    let token = at.tokens.get(number)?;
    let close = at.tokens.get(close_behind(at, number)?)?;
    let meant = match close.kind {
        TokenKind::Symbol(Symbol::CloseParenthesis) => "(",
        TokenKind::Symbol(Symbol::CloseBracket) => "[",
        _ => return None,
    };
    let is_meant = meant == wanted(at, number)?;
    (is_meant && word_of(at.text, token) != meant).then_some((token, meant))
}

fn opens(token: &Token) -> bool {
    matches!(
        token.kind,
        TokenKind::Symbol(Symbol::OpenParenthesis | Symbol::OpenBracket)
    )
}

fn closes(token: &Token) -> bool {
    matches!(
        token.kind,
        TokenKind::Symbol(Symbol::CloseParenthesis | Symbol::CloseBracket)
    )
}

fn ends(token: &Token) -> bool {
    matches!(
        token.kind,
        TokenKind::Symbol(Symbol::Semicolon | Symbol::OpenBrace | Symbol::CloseBrace)
    )
}

// The bracket that is open at the token that does not fit, or opens with it or right behind it.
fn open_around(at: At<'_>) -> Option<usize> {
    let opens_at = |number: &usize| at.tokens.get(*number).is_some_and(opens);
    let own = [at.number, at.number.saturating_add(1)];
    let name = at
        .token()
        .is_some_and(|token| token.kind == TokenKind::Name);
    let own = own
        .into_iter()
        .take(if name { 2 } else { 1 })
        .find(opens_at);
    if own.is_some() {
        return own;
    }
    let mut closed: usize = 0;
    for number in (0..at.number).rev().take(LONGEST) {
        let token = at.tokens.get(number)?;
        if ends(token) {
            return None;
        }
        if closes(token) {
            closed = closed.saturating_add(1);
        } else if opens(token) {
            if closed == 0 {
                return Some(number);
            }
            closed = closed.saturating_sub(1);
        }
    }
    None
}

// The bracket that closes what another one opens, whatever its kind.
fn close_behind(at: At<'_>, open: usize) -> Option<usize> {
    let mut inside: usize = 0;
    for number in (open.checked_add(1)?..at.tokens.len()).take(LONGEST) {
        let token = at.tokens.get(number)?;
        if ends(token) {
            return None;
        }
        if opens(token) {
            inside = inside.saturating_add(1);
        } else if closes(token) {
            if inside == 0 {
                return Some(number);
            }
            inside = inside.saturating_sub(1);
        }
    }
    None
}

// The bracket that belongs behind the token before one, as far as that and what is inside show it.
fn wanted(at: At<'_>, open: usize) -> Option<&'static str> {
    let before = at.tokens.get(open.checked_sub(1)?)?;
    let inside = at.tokens.get(open.checked_add(1)?)?;
    let word = word_of(at.text, before);
    match before.kind {
        // The key of a text in the dictionary.
        TokenKind::Keyword(Keyword::Label | Keyword::Help | Keyword::ConstantUnit) => Some("["),
        TokenKind::Keyword(_) => Some("("),
        TokenKind::Name if Builtin::named(word).is_some() => Some("("),
        TokenKind::Name if is_qualifier(word_of(at.text, inside)) => Some("("),
        TokenKind::Name if is_after_type_word(at, open) => Some("("),
        TokenKind::Name => Some("["),
        _ => None,
    }
}

// Whether TYPE and its word are before a bracket.
fn is_after_type_word(at: At<'_>, open: usize) -> bool {
    let word = open.saturating_sub(2);
    is_word(at.tokens, word, Keyword::Type)
}
