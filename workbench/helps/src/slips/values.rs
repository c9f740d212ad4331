//! Slips in the values of methods, and in what functions take.

use super::around::{Around, is_integer, is_symbol, on, open_parenthesis, parenthesis_open_at};
use super::bodies::begins;
use super::words::{is_misspelled_type, is_operator, is_unit, slip_of_label};
use super::{Placed, Slip};
use crate::near::Nearest;
use edd_lexer::token::{Token, TokenKind};
use edd_syntax::operators::{BUILTINS, Builtin};
use edd_syntax::symbols::{Keyword, Symbol};

/// How many tokens are looked at for the parenthesis that closes arguments.
const LONGEST: usize = 64;

// Whether a sign stands in the statement before the token.
fn has_sign(around: &Around<'_>, sign: Symbol) -> bool {
    around.so_far().iter().any(|token| is_symbol(token, sign))
}

// Whether something is compared in the statement before the token.
fn compares(around: &Around<'_>) -> bool {
    around.so_far().iter().any(|token| {
        matches!(
            token.kind,
            TokenKind::Symbol(Symbol::Comparison(_) | Symbol::LogicalAnd | Symbol::LogicalOr)
        )
    })
}

// A parenthesis that closes none, in a value with an operator: one may be missing, or it may be too many.
fn unopened(around: &Around<'_>) -> Option<Placed> {
    let is_operator = |token: &Token| matches!(token.kind, TokenKind::Symbol(Symbol::Operator(_)));
    let is_in_value =
        around.so_far().iter().any(is_operator) || around.at.ahead().is_some_and(is_operator);
    let is_unopened = around.is(Symbol::CloseParenthesis)
        && !around.follows(Symbol::CloseParenthesis)
        && open_parenthesis(around.at).is_none();
    let is_alone = begins(around) && around.before.kind == TokenKind::Name;
    if is_unopened && (is_alone || is_in_value && has_sign(around, Symbol::Equals)) {
        return around.here(Slip::ParenthesisNotOpen);
    }
    None
}

// A parenthesis or a bracket that is open at a closing brace.
fn unclosed(around: &Around<'_>) -> Option<Placed> {
    // Where a value goes on or ends behind the brace a parenthesis is meant by it.
    let is_other = match around.at.ahead()?.kind {
        TokenKind::Symbol(sign) => !matches!(
            sign,
            Symbol::CloseBrace | Symbol::OpenParenthesis | Symbol::Increment | Symbol::Decrement
        ),
        _ => false,
    };
    if !around.is(Symbol::CloseBrace) || is_other || is_in_head(around) {
        return None;
    }
    if is_symbol(around.at.back(2)?, Symbol::OpenBracket) {
        return around.behind(Slip::BracketHere);
    }
    open_parenthesis(around.at)?;
    around.behind(Slip::ParenthesisHere)
}

// Whether the parenthesis that is open is that of a branch or a loop.
fn is_in_head(around: &Around<'_>) -> bool {
    let word = parenthesis_open_at(around.at).and_then(|open| open.checked_sub(1));
    word.and_then(|word| around.at.tokens.get(word))
        .is_some_and(|word| {
            matches!(
                word.kind,
                TokenKind::Keyword(
                    Keyword::MethodIf | Keyword::While | Keyword::For | Keyword::Switch
                )
            )
        })
}

// Arguments right behind a name that begins a statement, with the parenthesis that closes them alone.
fn unopened_arguments(around: &Around<'_>) -> Option<Placed> {
    if !around.is(Symbol::Comma) || around.before.kind != TokenKind::Name || !begins(around) {
        return None;
    }
    let behind = around.at.tokens.get(around.at.number..)?;
    let ends = |token: &&Token| {
        matches!(
            token.kind,
            TokenKind::Symbol(
                Symbol::Semicolon
                    | Symbol::OpenParenthesis
                    | Symbol::CloseParenthesis
                    | Symbol::OpenBrace
                    | Symbol::CloseBrace
            )
        )
    };
    let end = behind.iter().take(LONGEST).find(ends)?;
    is_symbol(end, Symbol::CloseParenthesis)
        .then(|| on(end, Slip::ParenthesisNotOpen))
        .flatten()
}

// A `:` that belongs to no `?`, or a `=` in a condition.
fn signs(around: &Around<'_>) -> Option<Placed> {
    match around.token.kind {
        TokenKind::Symbol(Symbol::Colon)
            if has_sign(around, Symbol::Equals)
                && !has_sign(around, Symbol::Question)
                && around.at.ahead()?.line == around.token.line =>
        {
            around.here(Slip::QuestionMissing)
        }
        TokenKind::Symbol(Symbol::Equals)
            if compares(around) && open_parenthesis(around.at).is_some() =>
        {
            around.here(Slip::EqualIsWritten)
        }
        _ => None,
    }
}

// What is no value after `=`: an `if`, or several values.
fn no_value(around: &Around<'_>) -> Option<Placed> {
    match around.token.kind {
        _ if !around.follows(Symbol::Equals) => None,
        TokenKind::Keyword(Keyword::MethodIf) => around.here(Slip::ChoiceIsWritten),
        TokenKind::Symbol(Symbol::OpenBrace) => around.here(Slip::LocalHasOneValue),
        _ => None,
    }
}

/// Whether a name is that of a function, or by a slip of typing.
pub(crate) fn is_function(name: &str) -> bool {
    let mut nearest = Nearest::to(name);
    for function in BUILTINS {
        nearest.look(function.name());
    }
    Builtin::named(name).is_some() || nearest.found.is_some()
}

// What stands right after a name that begins a statement.
fn after_first_name(around: &Around<'_>) -> Option<Placed> {
    let is_in_braces = around.is(Symbol::OpenBrace) && is_integer(around.at.ahead()?);
    let before = around.word(around.before);
    if is_function(before) && (is_integer(around.token) || is_in_braces) {
        return around.here(Slip::ArgumentInParentheses);
    }
    if is_integer(around.token) && around.is_on_line() {
        let is_label = around.at.is_ahead(Symbol::Colon);
        return match slip_of_label(before) {
            Slip::CaseMeant if is_label => around.on_before(Slip::CaseMeant),
            _ => around.here(Slip::AssignmentOrSemicolon),
        };
    }
    // A word of two letters is near to none.
    if before == "in" && around.token.kind == TokenKind::Name && around.is_on_line() {
        return around.on_before(Slip::IntMeant);
    }
    let is_assigned = around.token.kind == TokenKind::Name
        && around.is_on_line()
        && !is_operator(before)
        && !is_misspelled_type(before)
        && !is_operator(around.word(around.token));
    if is_assigned {
        return around.here(Slip::AssignmentOrSemicolon);
    }
    None
}

// Whether the token after it goes on with the value at the token.
fn goes_on(ahead: TokenKind) -> bool {
    matches!(
        ahead,
        TokenKind::Name
            | TokenKind::Integer(_)
            | TokenKind::Symbol(
                Symbol::OpenParenthesis
                    | Symbol::CloseBracket
                    | Symbol::Equals
                    | Symbol::CompoundAssign(_)
                    | Symbol::Increment
                    | Symbol::Decrement
            )
    )
}

// A value right after a value inside of a statement.
fn after_value(around: &Around<'_>) -> Option<Placed> {
    let is_value = matches!(around.token.kind, TokenKind::Integer(_) | TokenKind::Name);
    let is_in_for = around.at.is_ahead(Symbol::Semicolon);
    if is_integer(around.token)
        && is_in_for
        && around.is_on_line()
        && open_parenthesis(around.at).is_some()
    {
        return around.here(Slip::OperatorMissing);
    }
    if goes_on(around.at.ahead()?.kind)
        || !is_value
        || !around.is_on_line()
        || open_parenthesis(around.at).is_some()
    {
        return None;
    }
    around.here(Slip::OperatorOrSemicolon)
}

// A value right after a value, or after a name that begins a statement.
fn side_by_side(around: &Around<'_>) -> Option<Placed> {
    let is_first = around.is_second();
    match around.before.kind {
        TokenKind::Integer(_)
            if around.token.kind == TokenKind::Name && is_unit(around.word(around.token)) =>
        {
            around.here(Slip::NumberWithoutUnit)
        }
        TokenKind::Name if is_first => after_first_name(around),
        TokenKind::Name if is_operator(around.word(around.before)) => None,
        TokenKind::Name | TokenKind::Integer(_) if !is_first => after_value(around),
        _ => None,
    }
}

// A value right after parentheses, or parentheses right after a number.
fn beside_parentheses(around: &Around<'_>) -> Option<Placed> {
    if !around.is_on_line() {
        return None;
    }
    let is_open = around.is(Symbol::OpenParenthesis);
    let is_operand =
        is_open || matches!(around.token.kind, TokenKind::Integer(_) | TokenKind::Name);
    let is_step = around.follows(Symbol::Increment) || around.follows(Symbol::Decrement);
    if is_step && is_operand && has_sign(around, Symbol::Equals) {
        return around.here(Slip::OperatorBeforeStep);
    }
    if is_open && is_integer(around.before) {
        return around.here(Slip::OperatorMissing);
    }
    if !around.follows(Symbol::CloseParenthesis) {
        return None;
    }
    let word = around.word_before();
    let is_branch = word.is_some_and(|word| matches!(word.kind, TokenKind::Keyword(_)));
    let is_value = is_open || is_integer(around.token);
    if is_branch || !is_value {
        return None;
    }
    around.here(Slip::OperatorOrSemicolon)
}

/// A slip in a value of a method.
pub(crate) fn value_slip(around: &Around<'_>) -> Option<Placed> {
    unopened(around)
        .or_else(|| unopened_arguments(around))
        .or_else(|| unclosed(around))
        .or_else(|| signs(around))
        .or_else(|| no_value(around))
        .or_else(|| beside_parentheses(around))
        .or_else(|| side_by_side(around))
}
