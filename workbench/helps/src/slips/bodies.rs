//! Slips in the bodies of methods that are known by the tokens around them.

use super::around::{
    Around, At, BRACES, PARENTHESES, is_integer, is_joined, is_keyword, is_symbol, on,
    open_parenthesis, opened, parenthesis_open_at, word_before,
};
use super::branches::{is_behind_head, lone_else, no_condition, no_word};
use super::values::{is_function, value_slip};
use super::words::{
    are_one_function, branch_meant, slip_of_branch, slip_of_label, slip_of_statement,
};
use super::{Placed, Slip};
use edd_lexer::token::{Token, TokenKind};
use edd_source::Outline;
use edd_source::tokens::{is_sign, is_word};
use edd_syntax::numbers::{Attr, Kind};
use edd_syntax::operators::Operator;
use edd_syntax::symbols::{Keyword, Symbol};

/// How many tokens are looked at for the `do` behind a condition.
const LONGEST: usize = 64;

// A fourth part of a `for`, a second expression in one, or one part alone.
fn part_of_for(around: &Around<'_>) -> Option<Placed> {
    let slip = match (around.token.kind, around.word(around.token)) {
        (TokenKind::Symbol(Symbol::Semicolon), _) => Slip::ForHasThreeParts,
        (TokenKind::Symbol(Symbol::Colon | Symbol::CloseParenthesis), _)
        | (TokenKind::Name, "in" | "of" | "to") => Slip::ForIsWritten,
        (TokenKind::Symbol(Symbol::Comma), _) => Slip::ForPartIsOneExpression,
        _ => return None,
    };
    let word = parenthesis_open_at(around.at)?.checked_sub(1)?;
    if is_word(around.at.tokens, word, Keyword::For) {
        return around.here(slip);
    }
    None
}

// Whether the parentheses before the token are those of the `while` that ends a `do`.
fn ends_do(around: &Around<'_>) -> bool {
    let tokens = around.at.tokens;
    let mut before = (0..around.at.number.saturating_sub(1)).rev();
    let word = before.find(|number| is_word(tokens, *number, Keyword::While));
    let Some(brace) = word.and_then(|number| number.checked_sub(1)) else {
        return false;
    };
    let open = opened(tokens, brace, 0, BRACES);
    is_sign(tokens, brace, Symbol::CloseBrace)
        && open.is_some_and(|open| is_word(tokens, open.saturating_sub(1), Keyword::Do))
}

// What is missing before a closing brace.
fn cut_off(around: &Around<'_>) -> Option<Placed> {
    let is_for_parenthesis =
        around.follows(Symbol::OpenParenthesis) && around.at.is_ahead(Symbol::Semicolon);
    if !around.is(Symbol::CloseBrace) || is_for_parenthesis {
        return None;
    }
    match around.before.kind {
        TokenKind::Symbol(
            Symbol::Operator(_)
            | Symbol::Comparison(_)
            | Symbol::CompoundAssign(_)
            | Symbol::Equals
            | Symbol::LogicalAnd
            | Symbol::LogicalOr
            | Symbol::Question
            | Symbol::OpenParenthesis
            | Symbol::Comma,
        ) => around.on_before(Slip::ValueAfterSign),
        TokenKind::Keyword(Keyword::MethodElse) => around.on_before(Slip::StatementAfterElse),
        TokenKind::Symbol(Symbol::CloseParenthesis) => {
            let word = around.word_before()?;
            match word.kind {
                TokenKind::Keyword(Keyword::While) if ends_do(around) => {
                    around.behind(Slip::SemicolonHere)
                }
                TokenKind::Keyword(
                    Keyword::MethodIf | Keyword::While | Keyword::For | Keyword::Switch,
                ) => on(word, Slip::StatementAfterParentheses),
                _ => None,
            }
        }
        _ => None,
    }
}

// A `do` whose `while` is missing after its braces.
fn half_of_do(around: &Around<'_>) -> Option<Placed> {
    if !around.follows(Symbol::CloseBrace) {
        return None;
    }
    let word = around.opening(BRACES)?.checked_sub(1)?;
    if !is_word(around.at.tokens, word, Keyword::Do) {
        return None;
    }
    if around.token.kind == TokenKind::Name {
        match around.word(around.token) {
            "until" | "UNTIL" => return around.here(Slip::NoUntil),
            word if branch_meant(word) == Some("while") => return around.here(Slip::WhileMeant),
            _ => {}
        }
    }
    let is_while = is_sign(
        around.at.tokens,
        word.checked_sub(1)?,
        Symbol::CloseParenthesis,
    );
    let slip = if is_while {
        Slip::DoLeftOut
    } else {
        Slip::DoEndsWithWhile
    };
    on(around.at.tokens.get(word)?, slip)
}

/// Whether a statement begins with the token before.
pub(crate) fn begins(around: &Around<'_>) -> bool {
    around.is_second()
        || around.at.is_back(2, Symbol::CloseParenthesis)
        || around
            .at
            .back(2)
            .is_some_and(|token| is_keyword(token, Keyword::MethodElse))
}

// A statement that does not go on as its word asks.
fn after_word(around: &Around<'_>) -> Option<Placed> {
    match around.before.kind {
        TokenKind::Keyword(Keyword::Break | Keyword::Continue) if around.is_on_line() => {
            around.here(Slip::BreakStandsAlone)
        }
        TokenKind::Name if around.is(Symbol::Colon) => {
            match around.at.ahead().map(|next| next.kind) {
                Some(TokenKind::Keyword(Keyword::Int | Keyword::Long)) => {
                    around.on_before(Slip::LocalIsDeclared)
                }
                _ if around.is_second() => {
                    around.on_before(slip_of_label(around.word(around.before)))
                }
                _ => None,
            }
        }
        TokenKind::Name
            if around.token.kind == TokenKind::Name
                && are_one_function(around.word(around.before), around.word(around.token)) =>
        {
            around.here(Slip::FunctionIsOneWord)
        }
        TokenKind::Name if begins(around) => {
            around.on_before(slip_of_statement(around.word(around.before))?)
        }
        _ => None,
    }
}

// Whether the token goes on with a value and begins no statement.
fn goes_on_with_value(around: &Around<'_>) -> bool {
    matches!(
        around.token.kind,
        TokenKind::Symbol(
            Symbol::LogicalAnd
                | Symbol::LogicalOr
                | Symbol::Comparison(_)
                | Symbol::Question
                | Symbol::Operator(
                    Operator::And | Operator::Or | Operator::Multiply | Operator::Divide
                )
        )
    )
}

// A `for` in capitals, whose parts are no arguments.
fn capital_for(around: &Around<'_>) -> Option<Placed> {
    if !around.is(Symbol::Semicolon) {
        return None;
    }
    let word = around
        .at
        .tokens
        .get(parenthesis_open_at(around.at)?.checked_sub(1)?)?;
    let name = around.word(word);
    if word.kind == TokenKind::Name && name.eq_ignore_ascii_case("for") {
        return on(word, Slip::ForMeant);
    }
    None
}

// A `do` after the condition of a `while`, and one statement without braces.
fn do_after_while(around: &Around<'_>) -> Option<Placed> {
    if !around.follows(Symbol::Semicolon) {
        return None;
    }
    let last = around.at.number.checked_sub(1)?;
    let before = around.at.tokens.get(..last)?.iter().rev();
    let inside = before.take(LONGEST).take_while(|token| {
        !matches!(
            token.kind,
            TokenKind::Keyword(Keyword::Do)
                | TokenKind::Symbol(Symbol::Semicolon | Symbol::OpenBrace | Symbol::CloseBrace)
        )
    });
    let number = last.checked_sub(inside.count())?.checked_sub(1)?;
    let word = word_before(around.at.tokens, number.checked_sub(1)?)?;
    if is_word(around.at.tokens, number, Keyword::Do) && is_keyword(word, Keyword::While) {
        return on(around.at.tokens.get(number)?, Slip::DoLeftOut);
    }
    None
}

// An element of an array in braces.
fn element_in_braces(around: &Around<'_>) -> Option<Placed> {
    let is_element = around.is(Symbol::OpenBrace)
        && around.before.kind == TokenKind::Name
        && is_joined(around.before, around.token)
        && is_integer(around.at.ahead()?)
        && open_parenthesis(around.at).is_some();
    is_element.then_some(())?;
    around.here(Slip::ElementInBrackets)
}

// A call after which no `;` comes: a branch whose word is another one, or in capitals.
fn after_call(around: &Around<'_>, word: &Token) -> Option<Placed> {
    let name = around.word(word);
    if let Some(slip) = slip_of_statement(name).or_else(|| slip_of_branch(name)) {
        return on(word, slip);
    }
    let open = around.opening(PARENTHESES)?;
    let is_first = around.statement().saturating_add(1) == open
        || is_behind_head(around, open.checked_sub(1)?);
    let is_head = around.is(Symbol::OpenBrace) || (!around.is_on_line() && !is_function(name));
    if !is_first || !is_head || branch_meant(name).is_some() {
        return None;
    }
    let slip = Slip::NoBranchWord;
    on(word, slip)
}

// What is said where a statement follows parentheses.
fn after_parentheses(around: &Around<'_>) -> Option<Placed> {
    let word = around.word_before()?;
    match word.kind {
        TokenKind::Keyword(Keyword::MethodElse) => on(word, Slip::IfAfterElse),
        TokenKind::Name => after_call(around, word),
        TokenKind::Keyword(Keyword::MethodIf | Keyword::While | Keyword::Switch)
            if goes_on_with_value(around) =>
        {
            around.here(Slip::ConditionEnds)
        }
        TokenKind::Keyword(Keyword::MethodIf | Keyword::While | Keyword::For | Keyword::Switch)
            if around.is(Symbol::Colon) =>
        {
            around.here(Slip::NoSignAfterParentheses)
        }
        _ => None,
    }
}

// What may not stand in the place of a statement or of an argument.
fn in_place(around: &Around<'_>) -> Option<Placed> {
    match (around.before.kind, around.token.kind) {
        (_, TokenKind::Keyword(Keyword::MethodElse)) => lone_else(around),
        (
            TokenKind::Symbol(Symbol::CloseParenthesis) | TokenKind::Keyword(Keyword::MethodElse),
            TokenKind::Keyword(Keyword::Int | Keyword::Long),
        ) => around.here(Slip::LocalInBraces),
        (TokenKind::Symbol(Symbol::Comma), TokenKind::Symbol(Symbol::CloseParenthesis)) => {
            around.on_before(Slip::ValueAfterComma)
        }
        (TokenKind::Symbol(Symbol::OpenParenthesis), TokenKind::Symbol(Symbol::Comma)) => {
            around.here(Slip::ValueBeforeComma)
        }
        (
            TokenKind::Symbol(Symbol::Semicolon | Symbol::OpenBrace | Symbol::CloseBrace),
            TokenKind::Symbol(Symbol::Operator(Operator::Divide | Operator::Multiply)),
        ) => around.here(Slip::CommentIsWritten),
        (_, TokenKind::Symbol(Symbol::Comma))
            if is_keyword(around.at.back(2)?, Keyword::MethodCase) =>
        {
            around.here(Slip::MethodLabelIsOne)
        }
        (
            TokenKind::Symbol(Symbol::OpenParenthesis | Symbol::Comma | Symbol::Equals),
            TokenKind::Symbol(Symbol::Operator(Operator::And | Operator::Multiply)),
        ) if is_joined(around.token, around.at.ahead()?) => around.here(Slip::VariableWithoutSign),
        _ => None,
    }
}

/// A slip in the body of a method.
pub(crate) fn statement_slip(around: &Around<'_>) -> Option<Placed> {
    if !around.at.is_in_body() {
        return None;
    }
    capital_for(around)
        .or_else(|| element_in_braces(around))
        .or_else(|| no_condition(around))
        .or_else(|| in_place(around))
        .or_else(|| no_word(around))
        .or_else(|| after_parentheses(around))
        .or_else(|| after_word(around))
        .or_else(|| cut_off(around))
        .or_else(|| part_of_for(around))
        .or_else(|| half_of_do(around))
        .or_else(|| do_after_while(around))
        .or_else(|| value_slip(around))
}

// Whether a statement begins with a token, and no attribute.
fn begins_statement(at: At<'_>) -> bool {
    match at.token().map(|token| token.kind) {
        Some(TokenKind::Keyword(
            Keyword::MethodIf
            | Keyword::While
            | Keyword::Do
            | Keyword::For
            | Keyword::Switch
            | Keyword::Return
            | Keyword::Int
            | Keyword::Long,
        )) => true,
        Some(TokenKind::Name) => matches!(
            at.ahead().map(|next| next.kind),
            Some(TokenKind::Symbol(
                Symbol::OpenParenthesis
                    | Symbol::Equals
                    | Symbol::CompoundAssign(_)
                    | Symbol::Increment
                    | Symbol::Decrement,
            ),)
        ),
        _ => false,
    }
}

// Whether an attribute begins with a token, and nothing else.
fn begins_attribute(at: At<'_>) -> bool {
    match at.token().map(|token| token.kind) {
        Some(TokenKind::Keyword(word)) => Attr::begun_by(word).is_some(),
        _ => false,
    }
}

// Whether a token is in the braces of a METHOD that open at another one, behind its body.
fn is_behind_body(at: At<'_>, outline: &Outline, open: usize) -> bool {
    outline.kind_around(at.tokens, at.number) == Some(Kind::Method)
        && (open..at.number).any(|number| is_word(at.tokens, number, Keyword::Definition))
}

/// The brace that ends a method or its body too early, where statements go on after it.
pub(crate) fn early_end(at: At<'_>, outline: &Outline) -> Option<Placed> {
    let brace = at.back(1)?;
    if !is_symbol(brace, Symbol::CloseBrace) {
        return None;
    }
    let slip = match outline.opened(at.tokens, at.number) {
        None if begins_attribute(at) => Slip::BraceEndsItem,
        _ if !begins_statement(at) => return None,
        None if outline.kind_before(at.number) == Some(Kind::Method) => Slip::BraceEndsMethod,
        Some(open) if is_behind_body(at, outline, open) => Slip::BraceEndsBody,
        _ => return None,
    };
    on(brace, slip)
}
