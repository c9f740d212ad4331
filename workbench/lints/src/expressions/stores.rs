//! Constants that what they are assigned to does not hold, and numbers of more than 32 bits.

use super::calls::target_of_argument;
use super::operands::referred;
use super::slips::check_named;
use super::walk::Walk;
use crate::instrument::variable_of;
use crate::kind::{MethodKind, VariableKind};
use crate::range::Range;
use crate::source::TokenIndex;
use edd_constants::evaluate;
use edd_instructions::Sort;
use edd_syntax::expr::Expr;
use edd_syntax::operators::{Builtin, Operator, RequestKind, UnaryOperator};
use edd_syntax::reference::Target;

/// The greatest number that a method computes with.
const GREATEST: u32 = 0x7FFF_FFFF;

/// An expression without the parentheses around it.
pub(crate) fn without_parentheses(e: &Expr<Target>) -> &Expr<Target> {
    match e {
        Expr::Parentheses(inner) => inner,
        _ => e,
    }
}

// The number that is stored. A plain number is the one that is written: of its 32 bits the variable
// keeps those that it has.
fn stored_number(value: &Expr<Target>, sort: Sort) -> Option<i64> {
    match without_parentheses(value) {
        Expr::Literal(number) => Some(i64::from(*number)),
        _ => evaluate(value, sort).number(),
    }
}

// Whether all bits of a number that was computed with 32 bits are kept. A negative one is seldom meant so, but
// -1 is all bits.
fn keeps_bits(range: Range, value: &Expr<Target>, number: i64, sort: Sort) -> bool {
    let value = without_parentheses(value);
    let is_negated = matches!(value, Expr::Unary(UnaryOperator::Minus, _)) && number != -1;
    range.width() == i64::from(u32::MAX) && !is_negated && sort == Sort::Method
}

/// A constant that a variable can't hold, so that another number is kept, or that is none of its
/// enumerators. `~` says that as many bits are meant as the variable has.
pub(super) fn check_stored(
    to: Target,
    value: &Expr<Target>,
    at: TokenIndex,
    walk: &mut Walk<'_, '_>,
) {
    if let Expr::Unary(UnaryOperator::Complement, _) = value {
        return;
    }
    if let Expr::Conditional(_, first, second) = without_parentheses(value) {
        check_stored(to, first, at, walk);
        return check_stored(to, second, at, walk);
    }
    check_kept_bits(to, value, at, walk);
    check_stored_choice(to, value, at, walk);
    let (Some(variable), Some(number)) = (variable_of(to), stored_number(value, walk.sort)) else {
        return;
    };
    let Some(range) = walk.context.instrument.range(variable) else {
        return;
    };
    if range.holds(number) {
        check_listed(variable, number, at, walk);
        check_named(&Expr::Reference(to), value, at, walk);
        check_limits(variable, number, at, walk);
    } else if !keeps_bits(range, value, number, walk.sort) {
        walk.findings
            .add(at, MethodKind::StoreOutOfRange(number, range));
    }
}

// Bits that are set in what a variable holds, and that it does not keep, as in `a = a | 0x100`.
fn check_kept_bits(to: Target, value: &Expr<Target>, at: TokenIndex, walk: &mut Walk<'_, '_>) {
    if let Expr::Binary(operator, first, second) = without_parentheses(value)
        && referred(first) == Some(to)
    {
        check_set_bits(*operator, to, second, at, walk);
    }
}

// A choice that is stored in a variable of enumerators, of which one of the choices is none.
fn check_stored_choice(to: Target, value: &Expr<Target>, at: TokenIndex, walk: &mut Walk<'_, '_>) {
    let Expr::Call {
        function: Target::Function(Builtin::Ask(RequestKind::SelectFromList)),
        arguments,
        ..
    } = without_parentheses(value)
    else {
        return;
    };
    let known = variable_of(to).and_then(|number| walk.context.instrument.variable(number));
    let choices = super::choices::count_choices(arguments);
    let Some((variable, choices)) = known.zip(choices) else {
        return;
    };
    if let Some(number) = (0..choices).find(|number| variable.lacks(*number)) {
        let name = variable.name().to_owned();
        walk.findings.add(at, VariableKind::Unlisted(number, name));
    }
}

/// The same of `|=` and `^=`.
pub(super) fn check_set_bits(
    operator: Operator,
    to: Target,
    value: &Expr<Target>,
    at: TokenIndex,
    walk: &mut Walk<'_, '_>,
) {
    let range = variable_of(to).and_then(|variable| walk.context.instrument.range(variable));
    let number = evaluate(value, walk.sort).number();
    let (Some(range), Some(number)) = (range, number) else {
        return;
    };
    // Of a variable with a sign all of its bits may be written without one.
    let is_wide = range.width() < number;
    if matches!(operator, Operator::Or | Operator::Xor) && is_wide {
        walk.findings
            .add(at, MethodKind::StoreOutOfRange(number, range));
    }
}

// A number outside of the limits of a variable in all of their branches. 0 often says that there is
// none.
fn check_limits(variable: u16, number: i64, at: TokenIndex, walk: &mut Walk<'_, '_>) {
    let Some(variable) = walk
        .context
        .instrument
        .variable(variable)
        .filter(|_| number != 0)
    else {
        return;
    };
    if let Some(least) = variable.least.filter(|least| number < *least) {
        walk.findings
            .add(at, MethodKind::StoreBelowLimit(number, least));
    } else if let Some(greatest) = variable.greatest.filter(|greatest| *greatest < number) {
        walk.findings
            .add(at, MethodKind::StoreOverLimit(number, greatest));
    }
}

/// A number that is none of a variable's enumerators.
pub(super) fn check_listed(variable: u16, number: i64, at: TokenIndex, walk: &mut Walk<'_, '_>) {
    let known = walk.context.instrument.variable(variable);
    if let Some(variable) = known.filter(|variable| variable.lacks(number)) {
        let name = variable.name().to_owned();
        walk.findings.add(at, VariableKind::Unlisted(number, name));
    }
}

/// Whether a value is the place that it is assigned to.
pub(crate) fn is_itself(to: Target, value: &Expr<Target>) -> bool {
    match without_parentheses(value) {
        Expr::Reference(from) => *from == to,
        Expr::Call {
            function: Target::Function(Builtin::IvarValue | Builtin::LvarValue),
            arguments,
            ..
        } => target_of_argument(arguments, 0) == Some(to),
        _ => false,
    }
}

/// An assignment of a variable or a local to itself.
pub(super) fn check_assigned(
    to: Target,
    value: &Expr<Target>,
    at: TokenIndex,
    walk: &mut Walk<'_, '_>,
) {
    if is_itself(to, value) {
        walk.findings.add(at, MethodKind::AssignedToItself);
    }
}

/// A plain decimal number of a method that is another one in 32 bits. What is written with `0x` is
/// meant as bits.
pub(crate) fn check_wrapped(value: &Expr<Target>, walk: &mut Walk<'_, '_>) {
    let Expr::Literal(number) = value else {
        return;
    };
    if walk.sort == Sort::Attribute || *number <= GREATEST {
        return;
    }
    let at = walk.context.places.sign(value);
    if walk.context.source.word(at).starts_with('0') {
        return;
    }
    if let Some(kept) = evaluate(value, walk.sort).number() {
        walk.findings
            .add(at, MethodKind::WrappedNumber(*number, kept));
    }
}
