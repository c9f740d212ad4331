//! Slips that are known by the tokens around them, each with its own words.

use super::around::{
    Around, At, is_integer, is_joined, is_keyword, is_symbol, on, open_parenthesis,
};
use super::bodies::statement_slip;
use super::brackets::bracket_slip;
use super::lists::list_slip;
use super::nesting::nesting_slip;
use super::shapes::shape_slip;
use super::signs::{are_one_sign, slip_of_signs};
use super::words::{is_else_if, slip_of_type};
use super::{Placed, Slip};
use edd_lexer::token::{Token, TokenKind};
use edd_source::Span;
use edd_source::tokens::{is_sign, item_kind};
use edd_syntax::operators::{Builtin, Operator};
use edd_syntax::symbols::{Keyword, Symbol};

/// How many tokens of a value are looked at for its `?`.
const LONGEST: usize = 16;

// A slip of two signs that are joined.
fn joined(around: &Around<'_>, one: &Token, other: &Token) -> Option<Placed> {
    let place = Span::of(one).up_to(Span::of(other));
    let slip = slip_of_signs(place.read(around.at.text))?;
    Some(Placed { place, slip })
}

// A sign and the one after it, which other languages join.
fn signs_ahead(around: &Around<'_>, next: &Token) -> Option<Placed> {
    let is_joined = is_joined(around.token, next);
    match (around.word(around.token), around.word(next)) {
        ("~", "=") => around.here(Slip::NotEqualIsWritten),
        _ if !is_joined => None,
        (":", "=") => around.here(Slip::AssignedByEquals),
        (":", ":") => around.here(Slip::MemberIsWritten),
        ("=", _) => joined(around, around.token, next),
        _ => None,
    }
}

// A sign and the one before it, which other languages join.
fn signs_before(around: &Around<'_>) -> Option<Placed> {
    let (before, sign) = (around.word(around.before), around.word(around.token));
    if !is_joined(around.before, around.token) {
        if !are_one_sign(before, sign) {
            return None;
        }
        return around.here(Slip::SignInOnePiece);
    }
    let behind = around.at.number.saturating_add(2);
    let is_call = is_sign(around.at.tokens, behind, Symbol::OpenParenthesis);
    if before == "-" && sign == ">" && is_call {
        return around.on_before(Slip::FunctionAlone);
    }
    joined(around, around.before, around.token)
}

// Two signs that other languages join.
fn signs(around: &Around<'_>) -> Option<Placed> {
    let ahead = match around.token.kind {
        TokenKind::Symbol(Symbol::Tilde | Symbol::Colon | Symbol::Equals) => {
            signs_ahead(around, around.at.ahead()?)
        }
        _ => None,
    };
    ahead.or_else(|| signs_before(around))
}

// A type, or a word that goes on a branch, before the token.
fn words(around: &Around<'_>) -> Option<Placed> {
    let first = around.so_far().first()?;
    if first.kind != TokenKind::Name {
        return None;
    }
    let word = around.word(first);
    let is_branch = is_else_if(word);
    let next = around.statement().saturating_add(1);
    if is_branch && is_sign(around.at.tokens, next, Symbol::OpenParenthesis) {
        return on(first, Slip::ElseIfIsWritten);
    }
    if next == around.at.number {
        return on(first, slip_of_type(word)?);
    }
    None
}

fn is_type(token: &Token) -> bool {
    matches!(token.kind, TokenKind::Keyword(Keyword::Int | Keyword::Long))
}

fn are_names(around: &Around<'_>) -> bool {
    around.before.kind == TokenKind::Name && around.token.kind == TokenKind::Name
}

// What does not go on with a declaration: a second name without a comma before it, or a bracket.
fn declaration(around: &Around<'_>) -> Option<Placed> {
    if !is_type(around.so_far().first()?) {
        return None;
    }
    if around.is(Symbol::OpenBracket) {
        return around.here(Slip::LocalIsOneNumber);
    }
    if around.is(Symbol::OpenParenthesis) && around.before.kind == TokenKind::Name {
        let is_call = Builtin::named(around.word(around.before)).is_some();
        return match around.at.back(2) {
            Some(comma) if is_call && is_symbol(comma, Symbol::Comma) => {
                on(comma, Slip::SemicolonForComma)
            }
            _ => on(around.before, Slip::NoFunctions),
        };
    }
    if !are_names(around) {
        return None;
    }
    if slip_of_type(around.word(around.before)).is_some() {
        return around.on_before(Slip::LocalHasTypeAndName);
    }
    if !around.is_on_line() {
        return None;
    }
    let is_next_local = matches!(
        around.at.ahead()?.kind,
        TokenKind::Symbol(Symbol::Semicolon | Symbol::Comma | Symbol::Equals)
    );
    around.here(if is_next_local {
        Slip::CommaBetweenLocals
    } else {
        Slip::EqualsBeforeValue
    })
}

// The word of a type where none stands.
fn misplaced_type(around: &Around<'_>) -> Option<Placed> {
    if !is_type(around.token) {
        return None;
    }
    let slip = match around.before.kind {
        TokenKind::Keyword(Keyword::Int | Keyword::Long) => Slip::LocalHasOneType,
        TokenKind::Keyword(Keyword::Method) => Slip::MethodHasNoType,
        TokenKind::Symbol(Symbol::OpenParenthesis) if is_cast(around)? => Slip::NoCasts,
        TokenKind::Name if around.is_on_line() && around.at.is_in_body() => Slip::TypeBeforeName,
        _ if is_keyword(around.at.back(2)?, Keyword::For) => Slip::LocalBeforeLoop,
        _ => return None,
    };
    around.here(slip)
}

// Whether a type stands in parentheses by itself; not known at the end of the text.
fn is_cast(around: &Around<'_>) -> Option<bool> {
    if !around.at.is_in_body() {
        return Some(false);
    }
    around.at.ahead()?;
    Some(around.at.is_ahead(Symbol::CloseParenthesis))
}

// The name of an item in two words.
fn parted_name(around: &Around<'_>) -> Option<Placed> {
    if !are_names(around) || item_kind(around.at.back(2)?).is_none() {
        return None;
    }
    if around.word(around.before) == "void" {
        around.on_before(Slip::MethodHasNoType)
    } else {
        around.here(Slip::NameIsOneWord)
    }
}

// A sign between texts.
fn joined_texts(around: &Around<'_>) -> Option<Placed> {
    if around.is(Symbol::Dot) && around.at.ahead()?.kind != TokenKind::String {
        return None;
    }
    if around.at.is_in_body() && around.at.ahead()?.kind != TokenKind::String {
        return around.here(Slip::TextShowsNoValues);
    }
    if around.is(Symbol::Operator(Operator::Remainder)) {
        return None;
    }
    around.here(Slip::TextsSideBySide)
}

// A second text of an attribute, after a comma.
fn second_text(around: &Around<'_>) -> Option<Placed> {
    match (around.at.back(2)?.kind, around.at.ahead()?.kind) {
        (TokenKind::Keyword(_), TokenKind::String) => around.here(Slip::TextHasAllLanguages),
        _ => None,
    }
}

// A comma inside of a number, where it or the digits behind it do not fit.
fn comma_in_number(around: &Around<'_>) -> Option<Placed> {
    let (before, comma, next) = if around.is(Symbol::Comma) {
        (around.before, around.token, around.at.ahead()?)
    } else {
        (around.at.back(2)?, around.before, around.token)
    };
    let are_digits = is_integer(before) && is_integer(next);
    if !are_digits || !is_joined(before, comma) || !is_joined(comma, next) {
        return None;
    }
    let is_group = around.word(next).len() == 3;
    let slip = if is_group {
        Slip::DigitsWithoutSign
    } else {
        Slip::NumbersAreWhole
    };
    on(comma, slip)
}

// A `=` behind what is not set, or in a condition.
fn equals(around: &Around<'_>) -> Option<Placed> {
    if !around.at.is_in_body() {
        let is_in_condition = open_parenthesis(around.at).is_some() || is_asked(around);
        return is_in_condition
            .then(|| around.here(Slip::EqualIsWritten))
            .flatten();
    }
    if around.before.kind == TokenKind::Name {
        return None;
    }
    around.here(Slip::VariableBeforeEquals)
}

// Whether a `?` stands behind the token in its value.
fn is_asked(around: &Around<'_>) -> bool {
    let behind = around.at.tokens.get(around.at.number..);
    let value = behind.unwrap_or_default().iter().take_while(|token| {
        !matches!(
            token.kind,
            TokenKind::Symbol(Symbol::Semicolon | Symbol::OpenBrace | Symbol::CloseBrace)
        )
    });
    value
        .take(LONGEST)
        .any(|token| is_symbol(token, Symbol::Question))
}

// Whether a sign sets what stands before it.
fn is_setting(sign: Symbol) -> bool {
    matches!(
        sign,
        Symbol::Equals | Symbol::CompoundAssign(_) | Symbol::Increment | Symbol::Decrement
    )
}

// A sign where no text, number or name has one.
fn operand(around: &Around<'_>) -> Option<Placed> {
    if is_integer(around.token) && around.follows(Symbol::Comma) {
        return comma_in_number(around);
    }
    let TokenKind::Symbol(sign) = around.token.kind else {
        return None;
    };
    match (around.before.kind, sign) {
        (TokenKind::String, Symbol::Comma) => second_text(around),
        (
            TokenKind::String,
            Symbol::Operator(Operator::Add | Operator::And | Operator::Remainder) | Symbol::Dot,
        ) => joined_texts(around),
        (TokenKind::Integer(_), Symbol::Comma) => comma_in_number(around),
        (TokenKind::Symbol(Symbol::CloseBracket), _) if is_setting(sign) => {
            around.here(Slip::ElementIsReadAlone)
        }
        (TokenKind::Keyword(_), _) => None,
        (_, Symbol::Equals) => equals(around),
        _ => None,
    }
}

// Whether a question of `? :` has no second part so far.
fn is_half_asked(around: &Around<'_>) -> bool {
    let mut open: usize = 0;
    for token in around.so_far() {
        match token.kind {
            TokenKind::Symbol(Symbol::Question) => open = open.saturating_add(1),
            TokenKind::Symbol(Symbol::Colon) => open = open.saturating_sub(1),
            _ => {}
        }
    }
    0 < open
}

// A value that ends too early or goes on too far.
fn value(around: &Around<'_>) -> Option<Placed> {
    match around.token.kind {
        TokenKind::Symbol(Symbol::Semicolon | Symbol::CloseParenthesis | Symbol::Comma)
            if is_half_asked(around) =>
        {
            around.here(Slip::ColonMissing)
        }
        TokenKind::Symbol(Symbol::Operator(_))
            if is_keyword(around.at.back(2)?, Keyword::MethodCase) =>
        {
            around.here(Slip::MethodLabelIsInteger)
        }
        _ => None,
    }
}

// A number that ends with a point, where a comma is meant.
fn point_for_comma(around: &Around<'_>) -> Option<Placed> {
    let ends_so =
        |token: &&Token| token.kind == TokenKind::Decimal && around.word(token).ends_with('.');
    let number = [around.token, around.before].into_iter().find(ends_so)?;
    let end = Span::of(number).end;
    let place = Span {
        start: end.checked_sub(1)?,
        end,
    };
    let slip = Slip::CommaForPoint;
    Some(Placed { place, slip })
}

// What the tokens right before say.
fn neighbours(around: &Around<'_>) -> Option<Placed> {
    let is_word = matches!(around.token.kind, TokenKind::Name | TokenKind::Keyword(_));
    let is_joined = is_joined(around.before, around.token);
    match around.before.kind {
        TokenKind::String if is_word && is_joined => around.here(Slip::QuoteInText),
        TokenKind::Name if around.is(Symbol::Operator(Operator::Subtract)) && is_joined => {
            around.here(Slip::NameHasLetters)
        }
        TokenKind::Keyword(Keyword::Return)
            if around.is_on_line() && !around.is(Symbol::CloseBrace) =>
        {
            around.here(Slip::MethodGivesNoValue)
        }
        _ => None,
    }
}

// The text from a token on.
fn text_from<'a>(text: &'a [u8], token: &Token) -> &'a [u8] {
    text.get(Span::of(token).start..).unwrap_or_default()
}

// Signs of comments and of merges.
fn marks(around: &Around<'_>) -> Option<Placed> {
    let behind = text_from(around.at.text, around.token);
    if behind.starts_with(b"*/") {
        return around.here(Slip::NoCommentOpen);
    }
    let first = around.at.tokens.get(around.at.first)?;
    let line = text_from(around.at.text, first);
    if line.starts_with(b"<<<<<<<") || line.starts_with(b"=======") || line.starts_with(b">>>>>>>")
    {
        return on(first, Slip::MarkOfMerge);
    }
    let second = around.at.tokens.get(around.at.first.saturating_add(2))?;
    let are_words = second.kind == TokenKind::Name && second.line == first.line;
    if line.starts_with(b"--") && (are_words || !around.at.is_in_body()) {
        return on(first, Slip::CommentIsWritten);
    }
    None
}

/// A slip that is known by the tokens around the one that does not fit.
pub(crate) fn slip_at(at: At<'_>) -> Option<Placed> {
    let around = Around::of(at)?;
    nesting_slip(&around)
        .or_else(|| point_for_comma(&around))
        .or_else(|| neighbours(&around))
        .or_else(|| marks(&around))
        .or_else(|| shape_slip(&around))
        .or_else(|| list_slip(&around))
        .or_else(|| signs(&around))
        .or_else(|| words(&around))
        .or_else(|| declaration(&around))
        .or_else(|| misplaced_type(&around))
        .or_else(|| parted_name(&around))
        .or_else(|| statement_slip(&around))
        .or_else(|| value(&around))
        .or_else(|| operand(&around))
        .or_else(|| bracket_slip(&around))
}
