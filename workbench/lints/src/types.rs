//! Types of variables: values that they can't hold, limits, and default values.

use crate::context::Context;
use crate::enumerators::check_enumerators;
use crate::formats::check_formats;
use crate::instrument::Variable;
use crate::kind::{NumberRole, VariableKind};
use crate::lists::values_in;
use crate::range::Range;
use crate::source::{TokenIndex, index};
use crate::warning::Findings;
use edd_constants::evaluate;
use edd_instructions::Sort;
use edd_syntax::cond::Cond;
use edd_syntax::expr::Expr;
use edd_syntax::item::{Attribute, TypePart, TypeWord};
use edd_syntax::numbers::NumberOption;
use edd_syntax::reference::Target;

/// An option of a type with its values.
#[derive(Clone, Copy)]
pub(crate) struct NumberPart<'t> {
    pub(crate) at: TokenIndex,
    pub(crate) which: NumberOption,
    pub(crate) value: &'t Cond<Target, Expr<Target>>,
}

impl NumberPart<'_> {
    /// The number that the option always is.
    pub(crate) fn number(&self) -> Option<i64> {
        match self.value {
            Cond::Value(e) => number_of(e),
            _ => None,
        }
    }
}

/// The number that an expression of an attribute always is.
pub(crate) fn number_of(e: &Expr<Target>) -> Option<i64> {
    evaluate(e, Sort::Attribute).number()
}

/// The options of a type that are numbers.
pub(crate) fn number_parts(parts: &[TypePart<Target>]) -> impl Iterator<Item = NumberPart<'_>> {
    parts.iter().filter_map(|part| match part {
        TypePart::OneNumber { at, which, value } => Some(NumberPart {
            at: index(*at),
            which: *which,
            value,
        }),
        _ => None,
    })
}

/// Warns of a number that the range of a variable does not hold.
pub(crate) fn check_range(
    range: Range,
    role: NumberRole,
    number: i64,
    at: TokenIndex,
    findings: &mut Findings<'_>,
) {
    if !range.holds(number) {
        findings.add(at, VariableKind::OutOfRange(role, number, range));
    }
}

fn check_options(parts: &[TypePart<Target>], range: Range, findings: &mut Findings<'_>) {
    for part in number_parts(parts) {
        let role = NumberRole::Option(part.which);
        for listed in values_in(part.value) {
            if let Some(number) = number_of(listed.value) {
                check_range(range, role, number, part.at, findings);
            }
        }
    }
}

/// An option that is one constant, with its place.
type Constant = (i64, TokenIndex);

fn constant(parts: &[TypePart<Target>], which: NumberOption) -> Option<Constant> {
    let part = number_parts(parts)
        .filter(|part| part.which == which)
        .last()?;
    Some((part.number()?, part.at))
}

fn check_limits(parts: &[TypePart<Target>], findings: &mut Findings<'_>) {
    let least = constant(parts, NumberOption::MinValue);
    let greatest = constant(parts, NumberOption::MaxValue);
    let default = constant(parts, NumberOption::DefaultValue);
    let is_crossed = |low: Option<Constant>, high: Option<Constant>| {
        low.zip(high).filter(|(low, high)| high.0 < low.0)
    };
    if let Some((low, high)) = is_crossed(least, greatest) {
        findings.add_beside(low.1, VariableKind::CrossedLimits(low.0, high.0), high.1);
    }
    if let Some((low, value)) = is_crossed(least, default) {
        findings.add_beside(value.1, VariableKind::DefaultBelow(value.0, low.0), low.1);
    }
    if let Some((value, high)) = is_crossed(default, greatest) {
        findings.add_beside(value.1, VariableKind::DefaultOver(value.0, high.0), high.1);
    }
}

// What is said of a default value that no enumerator names.
fn unnamed(number: i64, variable: &Variable<'_>) -> Option<VariableKind> {
    if variable
        .named_bits()
        .is_some_and(|bits| number & !bits != 0)
    {
        return Some(VariableKind::UnnamedBits(number));
    }
    let name = || variable.name().to_owned();
    variable
        .lacks(number)
        .then(|| VariableKind::Unlisted(number, name()))
}

fn check_defaults(
    parts: &[TypePart<Target>],
    variable: &Variable<'_>,
    range: Range,
    findings: &mut Findings<'_>,
) {
    for part in number_parts(parts).filter(|part| part.which == NumberOption::DefaultValue) {
        let numbers = values_in(part.value);
        let numbers = numbers.filter_map(|listed| number_of(listed.value));
        for number in numbers.filter(|number| range.holds(*number)) {
            if let Some(kind) = unnamed(number, variable) {
                findings.add(part.at, kind);
            }
        }
    }
}

/// Checks the type of a variable.
pub(crate) fn check_type(
    variable: &Variable<'_>,
    context: &Context<'_>,
    findings: &mut Findings<'_>,
) {
    for attribute in &variable.item.attributes {
        if let Attribute::TypeOf {
            word: TypeWord::Known { kind, size },
            parts,
            ..
        } = attribute
        {
            let range = Range::of(*kind, *size);
            check_options(parts, range, findings);
            check_limits(parts, findings);
            check_defaults(parts, variable, range, findings);
            check_formats(parts, findings);
            check_enumerators(parts, range, *kind, context, findings);
        }
    }
}
