//! Attributes and conditions that do not belong where they stand.

use super::SyntaxHelp;
use crate::Finding;
use crate::slips::{At, is_symbol};
use edd_lexer::token::{Token, TokenKind};
use edd_source::Outline;
use edd_source::tokens::{is_word, kind_word, word_of};
use edd_syntax::numbers::{ATTRIBUTES, Attr, Home, KINDS, Kind};
use edd_syntax::symbols::{Keyword, Symbol};

/// How many tokens a type has, with its size.
const LONGEST_TYPE: usize = 5;

/// How many tokens of an attribute are looked at for its end.
const LONGEST_ATTRIBUTE: usize = 16;

/// The attribute with this word.
pub(super) fn attribute_of(word: &str) -> Option<Attr> {
    ATTRIBUTES.iter().copied().find(|attr| attr.word() == word)
}

/// Says what is wrong with a token that is no part of the item around it: a condition or an
/// attribute. Returns whether it is one.
pub(super) fn say_in_item(at: At<'_>, token: &Token, kind: Kind, finding: &mut Finding) -> bool {
    if matches!(
        token.kind,
        TokenKind::Keyword(Keyword::If | Keyword::Select)
    ) {
        finding.say(help_of_condition(at));
        return true;
    }
    let attribute = attribute_of(word_of(at.text, token));
    match attribute.and_then(|attribute| help_of_attribute(kind, attribute)) {
        Some(help) => {
            finding.say(help);
            true
        }
        None => false,
    }
}

/// Says that an attribute stands among the options of a type, where one of these comes behind it. Returns
/// whether it is so.
pub(super) fn say_in_options(
    at: At<'_>,
    token: &Token,
    outline: &Outline,
    finding: &mut Finding,
) -> bool {
    let attribute = attribute_of(word_of(at.text, token)).filter(|it| !is_option(*it));
    let Some(attribute) = attribute.filter(|_| is_among_options(at, outline)) else {
        return false;
    };
    let word = attribute.word();
    finding.say(SyntaxHelp::AttributeInType { word });
    true
}

// Whether a token is in the braces behind a type, and an option comes behind the next `;`.
fn is_among_options(at: At<'_>, outline: &Outline) -> bool {
    let Some(brace) = outline.opened(at.tokens, at.number) else {
        return false;
    };
    let mut heads = (0..brace).rev().take(LONGEST_TYPE);
    let is_of_type = heads.any(|number| is_word(at.tokens, number, Keyword::Type));
    let behind = at.tokens.get(at.number..).unwrap_or_default();
    let mut behind = behind.iter().take(LONGEST_ATTRIBUTE);
    let end = behind.find(|token| is_symbol(token, Symbol::Semicolon));
    let next = end.and_then(|_| behind.next());
    let next = next.and_then(|token| attribute_of(word_of(at.text, token)));
    is_of_type && next.is_some_and(is_option)
}

// Where a condition stands, or that an attribute has none.
fn help_of_condition(at: At<'_>) -> SyntaxHelp {
    match at.back(1) {
        Some(before) if matches!(before.kind, TokenKind::Keyword(_)) => SyntaxHelp::NoCondition {
            word: word_of(at.text, before).to_owned(),
        },
        _ => SyntaxHelp::ConditionBehindWord,
    }
}

// Why an attribute does not belong in an item of a kind; nothing where it does.
fn help_of_attribute(kind: Kind, attribute: Attr) -> Option<SyntaxHelp> {
    let word = attribute.word();
    if is_option(attribute) {
        Some(SyntaxHelp::OptionOfType { word })
    } else if attribute.is_of_transaction() && attribute != Attr::Transaction {
        Some(SyntaxHelp::PartOfTransaction { word })
    } else if attribute.may_belong_to(kind) {
        None
    } else {
        let owners = KINDS
            .into_iter()
            .filter(|kind| attribute.may_belong_to(*kind));
        Some(SyntaxHelp::AttributeOfOthers {
            kind: kind_word(kind),
            word,
            owners: owners.map(kind_word).collect(),
        })
    }
}

// Whether it is an attribute that is written in the braces of TYPE with a word.
fn is_option(attribute: Attr) -> bool {
    let shape = attribute.shape();
    shape.home == Home::Type && shape.word.is_some()
}
