//! What helps where a name means nothing, or something of another kind.

use super::arguments::{kind_wanted, parameter_at};
use super::description::{Description, number_of};
use super::enumerators::compared_with;
use super::{Foreign, NameHelp};
use crate::near::Nearest;
use crate::slips::{MENU_QUALIFIERS, Slip, slip_of_left_out};
use crate::{Advice, Finding};
use edd_lexer::token::{Token, TokenKind};
use edd_source::tokens::is_sign;
use edd_source::{Confidence, Fix};
use edd_syntax::item::Item;
use edd_syntax::numbers::Kind;
use edd_syntax::operators::{BUILTINS, Builtin, Parameter};
use edd_syntax::reference::Path;
use edd_syntax::symbols::Symbol;

/// Says what helps where a name means nothing: where it does, the nearest one, or how it is declared.
pub(super) fn say_unknown(
    description: &Description<'_>,
    name: &str,
    number: usize,
    finding: &mut Finding,
) {
    let is_member = is_sign(description.tokens(), number.saturating_sub(1), Symbol::Dot);
    if say_split(description, number, finding) {
        return;
    }
    let is_misspelled = !is_member && is_misspelled_there(description, name);
    if is_member || is_misspelled || !say_known(description, name, number, finding) {
        say_new(description, name, number, is_member, finding);
    }
}

// Says which name is meant by several ones, whose `_` is a blank or a hyphen. Returns whether it is so.
fn say_split(description: &Description<'_>, number: usize, finding: &mut Finding) -> bool {
    let is_declared = |name: &str| description.declared(name).is_some();
    let Some(split) = description.split_around(number, is_declared) else {
        return false;
    };
    finding.span = Some(split.span);
    let fix = finding.replacement(&split.joined, Confidence::Guess);
    finding.propose(NameHelp::Meant { near: split.joined }, fix);
    true
}

// Whether a name is misspelled where an item is declared, which nothing uses. A member may have the name.
fn is_misspelled_there(description: &Description<'_>, name: &str) -> bool {
    let is_member = description.item(name).is_none() && description.declared(name).is_some();
    let near = is_member.then(|| description.nearest(name, false).alone());
    near.flatten()
        .filter(|near| description.count(near) == 1)
        .is_some_and(|near| description.item(near).is_some())
}

// Says what helps where a name is one of a method, of a function or of something elsewhere.
fn say_known(
    description: &Description<'_>,
    name: &str,
    number: usize,
    finding: &mut Finding,
) -> bool {
    if let Some(item) = description.item(name) {
        let place = description.span(number_of(item.at()));
        finding.say_at(place, help_of_item(description, item, number));
    } else if let Some(declared) = description.declared(name) {
        let name = name.to_owned();
        let place = description.span(declared);
        finding.say_at(place, Advice::from(NameHelp::MeansNothingHere { name }));
    } else if let Some(foreign) = Foreign::of(name) {
        let function = BUILTINS
            .iter()
            .find(|it| it.name().eq_ignore_ascii_case(name));
        let fix = function.and_then(|it| finding.replacement(it.name(), Confidence::Guess));
        finding.propose(NameHelp::Foreign(foreign), fix);
    } else if let Some(slip) = slip_of_left_out(name) {
        finding.say(slip);
    } else if let Some(function) = Builtin::named(name) {
        finding.say(NameHelp::CallFunction { function });
    } else {
        return false;
    }
    true
}

// What is said of an item that is named where it means nothing.
fn help_of_item(description: &Description<'_>, item: &Item<Path>, number: usize) -> NameHelp {
    let name = item.name().to_owned();
    let next = number.saturating_add(1);
    let is_called = is_sign(description.tokens(), next, Symbol::OpenParenthesis);
    match item.kind() {
        Kind::Method if parameter_at(description, number).is_some() => {
            NameHelp::MethodWithoutParentheses { name }
        }
        Kind::Method => NameHelp::MethodIsNotCalled { name },
        Kind::Array if is_called => NameHelp::ElementOfArray { name },
        kind if is_called => NameHelp::NotAFunction { name, kind },
        _ => NameHelp::MeansNothingHere { name },
    }
}

// Says what helps where nothing has a name: the nearest one, or how it is declared.
fn say_new(
    description: &Description<'_>,
    name: &str,
    number: usize,
    is_member: bool,
    finding: &mut Finding,
) {
    let nearest = description.nearest(name, is_member);
    let near = nearest
        .found
        .filter(|near| may_stand(description, near, number));
    let statement = statement_meant(description, name, number);
    match (near.or(statement), nearest.other) {
        (None, _) if !is_member && say_text(description, name, number, finding) => {}
        (Some(near), None) => say_near(description, name, near, finding),
        (Some(near), Some(other)) => finding.say(NameHelp::EitherMeant {
            near: near.to_owned(),
            other: other.to_owned(),
        }),
        (None, _) if is_member => finding.say(NameHelp::NoMember {
            name: name.to_owned(),
        }),
        (None, _) => finding.say(help_unknown(description, name, number)),
    }
}

// Whether a name may stand at a token: not that of an ARRAY or a COLLECTION where a VARIABLE is wanted and
// nothing of them is read.
fn may_stand(description: &Description<'_>, near: &str, number: usize) -> bool {
    let next = number.saturating_add(1);
    let tokens = description.tokens();
    let is_read = is_sign(tokens, next, Symbol::OpenBracket) || is_sign(tokens, next, Symbol::Dot);
    let is_compound = description
        .item(near)
        .is_some_and(|item| matches!(item.kind(), Kind::Array | Kind::Collection));
    !is_compound || is_read || kind_wanted(description, number) != Some(Kind::Variable)
}

// Says which name is meant. Where nothing uses that, and this name is used several times, the declaration is
// what is misspelled.
fn say_near(description: &Description<'_>, name: &str, near: &str, finding: &mut Finding) {
    let is_unused = description.count(near) == 1 && 1 < description.count(name);
    let declared = description.declared(near).filter(|_| is_unused);
    let place = declared.and_then(|declared| description.span(declared));
    let near = near.to_owned();
    if let Some(place) = place {
        let fix = Fix::replace(place, name, Confidence::Guess);
        let unused = NameHelp::NothingUses { near: near.clone() };
        finding.propose_at(Some(place), unused, Some(fix));
        return finding.say(NameHelp::Meant { near });
    }
    let fix = finding.replacement(&near, Confidence::Guess);
    finding.propose(NameHelp::Meant { near }, fix);
}

// Says that a name is the text of an enumerator, whose number is meant. Returns whether it is one.
fn say_text(
    description: &Description<'_>,
    name: &str,
    number: usize,
    finding: &mut Finding,
) -> bool {
    let compared = compared_with(description, number);
    let Some(enumerator) = description.enumerators().named(name, compared) else {
        return false;
    };
    let (word, variable) = (description.word(enumerator.number), enumerator.variable);
    // Where something else is compared, or a text is shown, the number is not meant.
    if compared != Some(variable) {
        return false;
    }
    let fix = finding.replacement(word, Confidence::Guess);
    finding.propose(
        NameHelp::TextOfEnumerator {
            name: name.to_owned(),
            number: word.to_owned(),
            variable: variable.to_owned(),
        },
        fix,
    );
    let variable = variable.to_owned();
    let place = description.span(enumerator.number);
    finding.say_at(place, NameHelp::EnumeratorIsThere { variable });
    true
}

// What is said of a name that no other one is near to.
fn help_unknown(description: &Description<'_>, name: &str, number: usize) -> NameHelp {
    if let Some(help) = qualifier_meant(description, name, number) {
        return help;
    }
    let next = number.saturating_add(1);
    let is_called = is_sign(description.tokens(), next, Symbol::OpenParenthesis);
    if !is_called && is_capital(name) && is_number_wanted(description, number) {
        let name = name.to_owned();
        return NameHelp::Macro { name };
    }
    let names = description.names_alike(name);
    if !is_called && !names.is_empty() {
        let names = names.into_iter().map(str::to_owned).collect();
        return NameHelp::Alike { names };
    }
    help_to_declare(description, name, number)
}

// Whether a name has capitals alone, as those of macros.
fn is_capital(name: &str) -> bool {
    let has_letter = name.bytes().any(|byte| byte.is_ascii_uppercase());
    1 < name.len() && has_letter && !name.bytes().any(|byte| byte.is_ascii_lowercase())
}

// Whether a number may stand at a token: it is not in a list, which has names alone.
fn is_number_wanted(description: &Description<'_>, number: usize) -> bool {
    let tokens = description.tokens();
    let is_list = [Symbol::Dot, Symbol::OpenBracket]
        .iter()
        .any(|sign| is_sign(tokens, number.saturating_add(1), *sign));
    let kind = description.around(number).map(|(_, item)| item.kind());
    let has_numbers = match kind {
        Some(Kind::Method) => {
            parameter_at(description, number).is_none_or(|parameter| parameter == Parameter::Number)
        }
        Some(Kind::Variable) => true,
        _ => open_parenthesis_before(tokens, number),
    };
    !is_list && has_numbers
}

// Whether a parenthesis is open right before a token, or a comparison stands there, as in a condition.
fn open_parenthesis_before(tokens: &[Token], number: usize) -> bool {
    let before = number.checked_sub(1).and_then(|before| tokens.get(before));
    before.is_some_and(|token| {
        matches!(
            token.kind,
            TokenKind::Symbol(
                Symbol::OpenParenthesis
                    | Symbol::Comparison(_)
                    | Symbol::Operator(_)
                    | Symbol::LogicalAnd
                    | Symbol::LogicalOr
            )
        )
    })
}

// The qualifier that is meant by a word right behind what a menu shows.
fn qualifier_meant(description: &Description<'_>, name: &str, number: usize) -> Option<NameHelp> {
    let (_, item) = description.around(number)?;
    let before = number.checked_sub(1)?;
    let is_behind_name = description.tokens().get(before)?.kind == TokenKind::Name;
    if item.kind() != Kind::Menu || !is_behind_name || name.len() < 4 {
        return None;
    }
    let qualifier = MENU_QUALIFIERS.into_iter().find(|qualifier| {
        let begins = qualifier.get(..name.len());
        begins.is_some_and(|begins| begins.eq_ignore_ascii_case(name))
    })?;
    Some(NameHelp::Qualifier {
        item: description.word(before).to_owned(),
        qualifier,
    })
}

// The word of a statement that is misspelled, where a name stands alone as one.
fn statement_meant(
    description: &Description<'_>,
    name: &str,
    number: usize,
) -> Option<&'static str> {
    let tokens = description.tokens();
    let is_alone = is_sign(tokens, number.saturating_add(1), Symbol::Semicolon);
    let before = tokens.get(number.saturating_sub(1))?;
    let begins = matches!(
        before.kind,
        TokenKind::Symbol(
            Symbol::Semicolon | Symbol::OpenBrace | Symbol::CloseBrace | Symbol::CloseParenthesis
        )
    );
    if !is_alone || !begins || !description.is_in_body(number) {
        return None;
    }
    let mut nearest = Nearest::to_word(name);
    for word in ["break", "continue", "return"] {
        nearest.look(word);
    }
    nearest.alone()
}

// How a name is declared that nothing has, where it is used.
fn help_to_declare(description: &Description<'_>, name: &str, number: usize) -> NameHelp {
    let name = name.to_owned();
    let next = number.saturating_add(1);
    if is_sign(description.tokens(), next, Symbol::OpenParenthesis) {
        return NameHelp::NoFunction { name };
    }
    match kind_wanted(description, number) {
        None => NameHelp::DeclareLocal { name },
        Some(kind) => NameHelp::DeclareItem { kind, name },
    }
}

// Says that a comma is meant by the point between a variable and another item. Returns whether it is so.
fn say_comma(
    description: &Description<'_>,
    item: &Item<Path>,
    number: usize,
    finding: &mut Finding,
) -> bool {
    let point = number.saturating_add(1);
    let is_point = is_sign(description.tokens(), point, Symbol::Dot);
    let next = description.item(description.word(point.saturating_add(1)));
    let place = description.span(point);
    let (Some(place), true, Kind::Variable) = (place, is_point && next.is_some(), item.kind())
    else {
        return false;
    };
    let fix = Fix::replace(place, ",", Confidence::Guess);
    finding.propose_at(Some(place), Slip::CommaForPoint, Some(fix));
    true
}

/// Says what helps where a name means something of another kind.
pub(super) fn say_kind(
    description: &Description<'_>,
    name: &str,
    number: usize,
    finding: &mut Finding,
) {
    let tokens = description.tokens();
    if is_sign(tokens, number.saturating_sub(1), Symbol::Dot) {
        let name = name.to_owned();
        let has_dot = is_sign(tokens, number.saturating_add(1), Symbol::Dot);
        return finding.say(if has_dot {
            NameHelp::HasNoMembers { name }
        } else {
            NameHelp::OtherKindOfMember { name }
        });
    }
    let Some(item) = description.item(name) else {
        return;
    };
    if say_comma(description, item, number, finding) {
        return;
    }
    let name = name.to_owned();
    let is_in_body = description.is_in_body(number);
    let is_read = is_in_body && parameter_at(description, number).is_none();
    let help = match item.kind() {
        Kind::Array if is_read => NameHelp::ElementOfArray { name },
        Kind::Collection if is_read => NameHelp::MemberOfCollection { name },
        Kind::Command if is_in_body => NameHelp::CommandByNumber { name },
        kind => NameHelp::IsOfKind { name, kind },
    };
    finding.say_at(description.span(number_of(item.at())), help);
}
