//! What a name is to be where it is used.

use super::description::Description;
use edd_source::tokens::is_sign;
use edd_syntax::item::ItemKind;
use edd_syntax::numbers::Kind;
use edd_syntax::operators::{Builtin, Parameter};
use edd_syntax::symbols::Symbol;

/// How many tokens are looked at for the function whose argument one is.
const LONGEST: usize = 64;

/// What the argument at a token is to be, where it is one of a function.
pub(super) fn parameter_at(description: &Description<'_>, number: usize) -> Option<Parameter> {
    let (function, before) = function_around(description, number)?;
    let function = Builtin::named(description.word(function))?;
    function.parameters().get(before).copied()
}

/// The kind of item that a name is to be, where nothing has it; none of a local.
pub(super) fn kind_wanted(description: &Description<'_>, number: usize) -> Option<Kind> {
    let next = number.saturating_add(1);
    if is_sign(description.tokens(), next, Symbol::OpenBracket) {
        return Some(Kind::Array);
    }
    if is_sign(description.tokens(), next, Symbol::Dot) {
        return Some(Kind::Collection);
    }
    if description.is_in_body(number) {
        return match parameter_at(description, number) {
            Some(Parameter::Method) => Some(Kind::Method),
            Some(Parameter::DeviceVariable) => Some(Kind::Variable),
            _ => None,
        };
    }
    match description.around(number).map(|(_, item)| &item.sort) {
        Some(ItemKind::Collection(of)) => Some(*of),
        _ => Some(Kind::Variable),
    }
}

/// The function of which what stands at a token is the first argument, or a part of it.
pub(super) fn called_around(description: &Description<'_>, number: usize) -> Option<Builtin> {
    let (function, before) = function_around(description, number)?;
    (before == 0)
        .then(|| Builtin::named(description.word(function)))
        .flatten()
}

/// The argument of the function at a token that is to be a variable of the device and is a local with
/// the name of one: the token that declares it, and the name.
pub(super) fn local_for_variable<'a>(
    description: &Description<'a>,
    function: usize,
) -> Option<(usize, &'a str)> {
    let parameters = Builtin::named(description.word(function))?.parameters();
    let first = function.saturating_add(2);
    let arguments = first
        ..first
            .saturating_add(LONGEST)
            .min(description.tokens().len());
    let (mut open, mut commas) = (0_usize, 0_usize);
    for number in arguments {
        if is_sign(description.tokens(), number, Symbol::OpenParenthesis) {
            open = open.saturating_add(1);
        } else if is_sign(description.tokens(), number, Symbol::CloseParenthesis) {
            open = open.checked_sub(1)?;
        } else if is_sign(description.tokens(), number, Symbol::Comma) && open == 0 {
            commas = commas.saturating_add(1);
        }
        let name = description.word(number);
        let is_wanted = parameters.get(commas) == Some(&Parameter::DeviceVariable);
        let is_variable = description
            .item(name)
            .is_some_and(|item| item.kind() == Kind::Variable);
        if is_wanted && is_variable {
            return Some((description.local_before(name, number)?, name));
        }
    }
    None
}

// The function whose argument is at a token, by the token of its name, and how many arguments are
// before it.
fn function_around(description: &Description<'_>, number: usize) -> Option<(usize, usize)> {
    let tokens = description.tokens();
    let (mut closed, mut commas) = (0_usize, 0_usize);
    for before in (0..number).rev().take(LONGEST) {
        if is_sign(tokens, before, Symbol::CloseParenthesis) {
            closed = closed.saturating_add(1);
        } else if is_sign(tokens, before, Symbol::Comma) && closed == 0 {
            commas = commas.saturating_add(1);
        } else if is_sign(tokens, before, Symbol::OpenParenthesis) {
            if closed == 0 {
                return Some((before.checked_sub(1)?, commas));
            }
            closed = closed.saturating_sub(1);
        }
    }
    None
}
