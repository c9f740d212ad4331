//! Slips at `else` and at conditions.

use super::around::{Around, PARENTHESES, is_integer, is_keyword, on, open_brace, word_before};
use super::bodies::begins;
use super::{Placed, Slip};
use edd_lexer::token::{Token, TokenKind};
use edd_syntax::symbols::{Keyword, Symbol};

/// How many tokens are looked at for the end of a condition.
const LONGEST: usize = 64;

// Whether the innermost braces around the token are those of an `if`.
fn is_in_if(around: &Around<'_>) -> bool {
    let tokens = around.at.tokens;
    open_brace(tokens, around.at.number)
        .and_then(|brace| word_before(tokens, brace.saturating_sub(1)))
        .is_some_and(|word| is_keyword(word, Keyword::MethodIf))
}

// Whether a statement ends with the token before, if it ends there at all.
fn may_end_statement(around: &Around<'_>) -> bool {
    match around.before.kind {
        TokenKind::Name
        | TokenKind::Integer(_)
        | TokenKind::Decimal
        | TokenKind::Symbol(Symbol::CloseBracket | Symbol::Increment | Symbol::Decrement)
        | TokenKind::Keyword(Keyword::Break | Keyword::Continue | Keyword::Return) => true,
        TokenKind::Symbol(Symbol::CloseParenthesis) => {
            let word = around.word_before();
            !word.is_some_and(|word| is_keyword(word, Keyword::MethodIf))
        }
        _ => false,
    }
}

/// An `else` that belongs to no `if`.
pub(crate) fn lone_else(around: &Around<'_>) -> Option<Placed> {
    let is_lone = around.before.kind == TokenKind::Name && begins(around);
    let goes_on = !around.at.is_ahead(Symbol::Semicolon) && !is_lone;
    if may_end_statement(around) && goes_on {
        return around.behind(Slip::SemicolonHere);
    }
    if around.follows(Symbol::CloseParenthesis) {
        return around.here(Slip::StatementBeforeElse);
    }
    if around.at.is_back(2, Symbol::CloseBrace) && around.follows(Symbol::Semicolon) {
        return around.on_before(Slip::SemicolonLeftOut);
    }
    around.here(slip_of_else(around))
}

// What is said of an `else` that belongs to no `if`.
fn slip_of_else(around: &Around<'_>) -> Slip {
    if around.at.is_ahead(Symbol::Colon) {
        return Slip::DefaultForElse;
    }
    if is_in_if(around) && !around.follows(Symbol::CloseBrace) {
        return Slip::BraceBeforeElse;
    }
    if around.follows(Symbol::CloseBrace) && around.at.is_back(2, Symbol::CloseBrace) {
        return Slip::BraceTooManyBeforeElse;
    }
    Slip::LoneElse
}

// Whether a `)` closes what begins at the token, so that `(` is meant by it.
fn closes_parenthesis(around: &Around<'_>) -> bool {
    for count in 1..=LONGEST {
        let number = around.at.number.saturating_add(count);
        match around.at.tokens.get(number).map(|token| token.kind) {
            Some(TokenKind::Symbol(Symbol::CloseParenthesis)) => return true,
            Some(TokenKind::Symbol(
                Symbol::OpenParenthesis
                | Symbol::Semicolon
                | Symbol::OpenBrace
                | Symbol::CloseBrace,
            ))
            | None => return false,
            _ => {}
        }
    }
    false
}

/// A condition without its word, and a label without its own.
pub(crate) fn no_word(around: &Around<'_>) -> Option<Placed> {
    if around.is(Symbol::Colon) {
        return no_case(around);
    }
    let begins = around.is(Symbol::OpenBrace)
        || matches!(around.token.kind, TokenKind::Name | TokenKind::Keyword(_));
    if !begins || !around.follows(Symbol::CloseParenthesis) {
        return None;
    }
    let open = around.opening(PARENTHESES)?;
    if around.statement() == open || is_behind_head(around, open) {
        return on(around.at.tokens.get(open)?, Slip::WordBeforeParentheses);
    }
    None
}

/// Whether a token comes right behind the parentheses of a branch or a loop.
pub(crate) fn is_behind_head(around: &Around<'_>, number: usize) -> bool {
    let tokens = around.at.tokens;
    let Some(before) = number.checked_sub(1) else {
        return false;
    };
    word_before(tokens, before).is_some_and(|word| {
        matches!(
            word.kind,
            TokenKind::Keyword(Keyword::MethodIf | Keyword::While | Keyword::For)
        )
    })
}

fn ends_before(token: &Token) -> bool {
    matches!(
        token.kind,
        TokenKind::Symbol(
            Symbol::Semicolon | Symbol::OpenBrace | Symbol::CloseBrace | Symbol::Colon
        )
    )
}

// A `:` without the word of its label.
fn no_case(around: &Around<'_>) -> Option<Placed> {
    if ends_before(around.before) {
        return around.here(Slip::DefaultBeforeColon);
    }
    if is_integer(around.before) && ends_before(around.at.back(2)?) {
        return around.on_before(Slip::CaseBeforeLabel);
    }
    None
}

/// A branch or a loop without its condition.
pub(crate) fn no_condition(around: &Around<'_>) -> Option<Placed> {
    let is_word = matches!(
        around.before.kind,
        TokenKind::Keyword(Keyword::MethodIf | Keyword::While | Keyword::Switch)
    );
    if is_word && around.is(Symbol::OpenBrace) && !closes_parenthesis(around) {
        return around.behind(Slip::ConditionHere);
    }
    None
}
