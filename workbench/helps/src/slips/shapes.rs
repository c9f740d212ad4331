//! Slips in the shape of items, attributes and types.

use super::around::{Around, is_integer, is_joined, is_keyword};
use super::{Placed, Slip};
use edd_lexer::token::{Token, TokenKind};
use edd_source::tokens::item_kind;
use edd_syntax::numbers::{Attr, Kind, ValueKind};
use edd_syntax::operators::Operator;
use edd_syntax::symbols::{Keyword, Symbol};

/// How many tokens are looked at for the end of a condition.
const LONGEST: usize = 64;

// The kind of the item whose name is the token before.
fn kind_named(around: &Around<'_>) -> Option<Kind> {
    if around.before.kind != TokenKind::Name {
        return None;
    }
    let kind = item_kind(around.at.back(2)?)?;
    match around.at.back(3) {
        Some(of) if of.kind == TokenKind::Keyword(Keyword::Of) => item_kind(around.at.back(4)?),
        _ => Some(kind),
    }
}

// What is said of an item that has no braces.
fn slip_of_item(kind: Kind) -> Slip {
    match kind {
        Kind::Variable => Slip::VariableWithoutBraces,
        Kind::Command => Slip::CommandWithoutBraces,
        Kind::Menu => Slip::MenuWithoutBraces,
        Kind::Collection => Slip::CollectionWithoutBraces,
        Kind::Method => Slip::MethodWithoutBraces,
        Kind::Array => Slip::ArrayWithoutBraces,
    }
}

// OF after the name of an item.
fn late_of(around: &Around<'_>) -> Option<Placed> {
    if around.token.kind != TokenKind::Name || !is_keyword(around.at.ahead()?, Keyword::Of) {
        return None;
    }
    let slip = match around.before.kind {
        TokenKind::Keyword(Keyword::Array) => Slip::ArrayOfBeforeName,
        TokenKind::Keyword(Keyword::Collection) => Slip::CollectionOfBeforeName,
        _ => return None,
    };
    around.here(slip)
}

// An item that ends after its name.
fn item(around: &Around<'_>) -> Option<Placed> {
    let kind = kind_named(around)?;
    match around.token.kind {
        TokenKind::Symbol(Symbol::Semicolon | Symbol::Equals)
            if !around.at.is_ahead(Symbol::OpenBrace) =>
        {
            around.here(slip_of_item(kind))
        }
        TokenKind::Symbol(Symbol::OpenBracket) if kind == Kind::Array => {
            around.here(Slip::ArrayHasNoSize)
        }
        TokenKind::Symbol(Symbol::OpenParenthesis) if kind == Kind::Method => {
            around.here(Slip::MethodTakesNothing)
        }
        _ if item_kind(around.token).is_some() => around.behind(slip_of_item(kind)),
        _ => None,
    }
}

// What is said where the word of a list has other brackets than braces.
fn slip_of_list(word: Keyword) -> Option<Slip> {
    let slip = match word {
        Keyword::Items => Slip::ItemsInBraces,
        Keyword::Elements => Slip::ElementsInBraces,
        Keyword::Members => Slip::MembersInBraces,
        Keyword::Request => Slip::RequestInBraces,
        Keyword::Reply => Slip::ReplyInBraces,
        Keyword::ResponseCodes => Slip::CodesInBraces,
        Keyword::Transaction => Slip::MessagesInBraces,
        Keyword::Definition => Slip::StatementsInBraces,
        _ => return None,
    };
    Some(slip)
}

// The word of a list alone, or before other brackets than braces.
fn no_braces(around: &Around<'_>) -> Option<Placed> {
    let TokenKind::Keyword(word) = around.before.kind else {
        return None;
    };
    let slip = slip_of_list(word)?;
    match around.token.kind {
        TokenKind::Symbol(Symbol::Semicolon) => around.here(Slip::ListWithoutBraces),
        TokenKind::Symbol(Symbol::OpenBracket | Symbol::OpenParenthesis) => {
            let is_number = word == Keyword::Transaction && is_integer(around.at.ahead()?);
            around.here(if is_number {
                Slip::TransactionNumber
            } else {
                slip
            })
        }
        _ => None,
    }
}

// A bracket after the word of a type.
fn bracket_of_type(around: &Around<'_>) -> Option<Placed> {
    if !around.is(Symbol::OpenBracket) || around.before.kind != TokenKind::Name {
        return None;
    }
    match around.word(around.before) {
        "ENUMERATED" | "BIT_ENUMERATED" => around.here(Slip::EnumeratorsInBraces),
        "INTEGER" | "UNSIGNED_INTEGER" => around.here(Slip::SizeInParentheses),
        _ => None,
    }
}

// Braces around what a CASE gives.
fn of_case(around: &Around<'_>) -> Option<Placed> {
    let is_brace = around.is(Symbol::OpenBrace) && around.follows(Symbol::Colon);
    if is_brace && !around.at.is_in_body() {
        return around.here(Slip::CaseWithoutBraces);
    }
    None
}

// Whether the attribute with this word gives what is of this sort.
fn gives(word: Keyword, value: ValueKind) -> bool {
    Attr::from_word(word).is_some_and(|attr| attr.shape().value == value)
}

// Whether a parenthesis begins at the token behind which a brace comes: the word of a condition is missing.
fn begins_condition(around: &Around<'_>) -> bool {
    let behind = around.at.tokens.get(around.at.number..);
    let mut open: usize = 0;
    let mut behind = behind.unwrap_or_default().iter().take(LONGEST);
    let end = behind.find(|token| {
        match token.kind {
            TokenKind::Symbol(Symbol::OpenParenthesis) => open = open.saturating_add(1),
            TokenKind::Symbol(Symbol::CloseParenthesis) => open = open.saturating_sub(1),
            _ => {}
        }
        open == 0
    });
    let next = end.and_then(|_| behind.next());
    around.is(Symbol::OpenParenthesis)
        && next.is_some_and(|token| token.kind == TokenKind::Symbol(Symbol::OpenBrace))
}

// A single value in brackets.
fn value(around: &Around<'_>) -> Option<Placed> {
    let (TokenKind::Keyword(word), TokenKind::Symbol(sign)) =
        (around.before.kind, around.token.kind)
    else {
        return None;
    };
    if !matches!(
        sign,
        Symbol::OpenBrace | Symbol::OpenBracket | Symbol::OpenParenthesis
    ) || begins_condition(around)
    {
        return None;
    }
    let slip = match word {
        Keyword::Class => Slip::ClassesWithoutBrackets,
        Keyword::Handling => Slip::HandlingWithoutBrackets,
        Keyword::Validity => Slip::ValidityWithoutBrackets,
        Keyword::Operation => Slip::OperationWithoutBrackets,
        Keyword::Number => Slip::NumberWithoutBrackets,
        _ if sign != Symbol::OpenBracket && gives(word, ValueKind::Text) => {
            Slip::TextWithoutBrackets
        }
        _ if sign != Symbol::OpenParenthesis && gives(word, ValueKind::Expression) => {
            Slip::ValueWithoutBrackets
        }
        _ => return None,
    };
    around.here(slip)
}

// A type of C where that of a variable is.
fn type_of_c(around: &Around<'_>) -> Option<Placed> {
    let (TokenKind::Keyword(Keyword::Type), TokenKind::Keyword(word)) =
        (around.before.kind, around.token.kind)
    else {
        return None;
    };
    let slip = match word {
        Keyword::Int
        | Keyword::Long
        | Keyword::Char
        | Keyword::Short
        | Keyword::Signed
        | Keyword::Unsigned => Slip::TypeOfVariable,
        Keyword::Float | Keyword::Double => Slip::NoFloat,
        _ => return None,
    };
    around.here(slip)
}

// A `;` between a type and its braces.
fn parted_type(around: &Around<'_>) -> Option<Placed> {
    if !around.is(Symbol::OpenBrace) || !around.follows(Symbol::Semicolon) {
        return None;
    }
    let is_sized = around.at.is_back(2, Symbol::CloseParenthesis);
    let word = around.at.back(if is_sized { 6 } else { 3 })?;
    if is_keyword(word, Keyword::Type) {
        return around.on_before(Slip::SemicolonLeftOut);
    }
    None
}

/// Whether the word before the token is that of a type.
pub(crate) fn is_after_type(around: &Around<'_>) -> bool {
    is_type(around.word(around.before))
}

/// Whether a word is that of a type.
pub(crate) fn is_type(word: &str) -> bool {
    matches!(
        word,
        "INTEGER" | "UNSIGNED_INTEGER" | "ENUMERATED" | "BIT_ENUMERATED"
    )
}

// What goes on after the word of a type.
fn after_type(around: &Around<'_>) -> Option<Placed> {
    if !is_after_type(around) || !is_keyword(around.at.back(2)?, Keyword::Type) {
        return None;
    }
    let slip = match around.token.kind {
        TokenKind::Symbol(Symbol::Equals) => Slip::DefaultInBraces,
        TokenKind::Name
        | TokenKind::Keyword(Keyword::Unsigned | Keyword::Signed | Keyword::Int) => {
            Slip::TypeIsOneWord
        }
        _ => return None,
    };
    around.here(slip)
}

fn is_case(token: &Token) -> bool {
    matches!(
        token.kind,
        TokenKind::Keyword(Keyword::Case | Keyword::MethodCase)
    )
}

// Something else than an integer for a label.
fn label(around: &Around<'_>) -> Option<Placed> {
    match around.token.kind {
        TokenKind::Symbol(Symbol::Comma) if is_keyword(around.at.back(2)?, Keyword::Case) => {
            around.here(Slip::LabelIsOne)
        }
        TokenKind::Symbol(Symbol::Dot) if is_case(around.at.back(2)?) => {
            around.here(Slip::LabelIsNoRange)
        }
        _ if !is_case(around.before) => None,
        TokenKind::Integer(_) | TokenKind::Symbol(Symbol::Operator(Operator::Subtract)) => None,
        TokenKind::Keyword(Keyword::Default | Keyword::MethodDefault) => {
            around.on_before(Slip::DefaultWithoutCase)
        }
        _ => around.here(Slip::LabelIsInteger),
    }
}

// An element that is written as a member.
fn element(around: &Around<'_>) -> Option<Placed> {
    let is_first = around.before.kind == TokenKind::Name && is_joined(around.before, around.token);
    if is_first && around.token.kind == TokenKind::Decimal {
        return around.here(Slip::ElementIsRead);
    }
    None
}

/// A slip in the shape of an item, of an attribute or of a type.
pub(crate) fn shape_slip(around: &Around<'_>) -> Option<Placed> {
    late_of(around)
        .or_else(|| item(around))
        .or_else(|| no_braces(around))
        .or_else(|| bracket_of_type(around))
        .or_else(|| of_case(around))
        .or_else(|| value(around))
        .or_else(|| type_of_c(around))
        .or_else(|| parted_type(around))
        .or_else(|| after_type(around))
        .or_else(|| label(around))
        .or_else(|| element(around))
}
