//! Operators that bind otherwise than they look, and operands that settle what an operator gives.

use super::slips::check_named_label;
use super::stores::{check_listed, check_set_bits, without_parentheses};
use super::walk::Walk;
use crate::branches::are_alike;
use crate::instrument::variable_of;
use crate::kind::{ConditionKind, VariableKind};
use crate::range::Range;
use crate::source::TokenIndex;
use edd_arithmetic::{holds, wrapped};
use edd_constants::evaluate;
use edd_instructions::Sort;
use edd_syntax::expr::Expr;
use edd_syntax::operators::{Comparison, Operator, UnaryOperator};
use edd_syntax::reference::Target;
use edd_syntax::types::VarType;

/// `&&` or `||`.
#[derive(Clone, Copy, PartialEq, Eq)]
pub(crate) enum Logical {
    And,
    Or,
}

// Whether an expression is a comparison that stands in no parentheses.
fn is_bare_comparison(e: &Expr<Target>) -> bool {
    matches!(e, Expr::Compare(..))
}

/// Whether an operator is one on bits.
pub(super) fn joins_bits(operator: Operator) -> bool {
    matches!(operator, Operator::And | Operator::Or | Operator::Xor)
}

/// Bits of a comparison, as in `a & 2 == 2`, which is `a & (2 == 2)`. Two comparisons, as in
/// `a == 1 | a == 2`, bind as they look.
pub(super) fn check_bits(
    operator: Operator,
    first: &Expr<Target>,
    second: &Expr<Target>,
    at: TokenIndex,
    walk: &mut Walk<'_, '_>,
) {
    if joins_bits(operator) && is_bare_comparison(first) != is_bare_comparison(second) {
        walk.findings.add(at, ConditionKind::ComparedBits);
    }
}

/// A comparison of what a comparison gives, as in `1 < a < 5`, or of what `!` gives, as in
/// `!a == 1`; `!a == !b` compares as it looks. Returns whether it is one.
pub(super) fn check_compared(
    first: &Expr<Target>,
    second: &Expr<Target>,
    at: TokenIndex,
    walk: &mut Walk<'_, '_>,
) -> bool {
    let is_negated = |e: &Expr<Target>| matches!(e, Expr::Unary(UnaryOperator::Not, _));
    let kind = if is_bare_comparison(first) {
        ConditionKind::ComparedTruth
    } else if is_negated(first) && !is_negated(second) {
        ConditionKind::NegatedFirst
    } else {
        return false;
    };
    walk.findings.add(at, kind);
    true
}

/// What a plain reference refers to.
pub(crate) fn referred(e: &Expr<Target>) -> Option<Target> {
    match without_parentheses(e) {
        Expr::Reference(target) => Some(*target),
        _ => None,
    }
}

// What a reference refers to, or the variable that is the element of a constant number.
fn place_of(e: &Expr<Target>, walk: &Walk<'_, '_>) -> Option<Target> {
    match without_parentheses(e) {
        Expr::Reference(target) => Some(*target),
        Expr::Indexed(array, index) => walk.context.instrument.element_at(*array, index, walk.sort),
        _ => None,
    }
}

// Whether both are the same place.
fn are_one_place(first: &Expr<Target>, second: &Expr<Target>, walk: &Walk<'_, '_>) -> bool {
    let place = place_of(first, walk);
    place.is_some() && place == place_of(second, walk)
}

// Whether both are the same place, or the same plain number.
fn are_same_values(first: &Expr<Target>, second: &Expr<Target>, walk: &Walk<'_, '_>) -> bool {
    match (without_parentheses(first), without_parentheses(second)) {
        (Expr::Literal(one), Expr::Literal(other)) => one == other,
        _ => are_one_place(first, second, walk),
    }
}

// Whether both are the same place, or the same operator on the same operands.
fn are_same(first: &Expr<Target>, second: &Expr<Target>, walk: &Walk<'_, '_>) -> bool {
    let are_operands =
        |a, b| are_same_values(a, b, walk) || (has_operator(a) && are_same(a, b, walk));
    match (without_parentheses(first), without_parentheses(second)) {
        (Expr::Compare(one, a, b), Expr::Compare(other, c, d)) => {
            one == other && are_operands(a, c) && are_operands(b, d)
        }
        (Expr::Binary(one, a, b), Expr::Binary(other, c, d)) => {
            one == other && are_operands(a, c) && are_operands(b, d)
        }
        (Expr::Unary(one, a), Expr::Unary(other, b)) => one == other && are_operands(a, b),
        _ => are_one_place(first, second, walk),
    }
}

fn has_operator(e: &Expr<Target>) -> bool {
    matches!(
        without_parentheses(e),
        Expr::Compare(..) | Expr::Binary(..) | Expr::Unary(..)
    )
}

/// An operator on bits or a difference, both of whose operands are one reference.
pub(super) fn check_operands(
    operator: Operator,
    first: &Expr<Target>,
    second: &Expr<Target>,
    at: TokenIndex,
    walk: &mut Walk<'_, '_>,
) {
    let is_settled = matches!(
        operator,
        Operator::Subtract
            | Operator::Divide
            | Operator::Remainder
            | Operator::And
            | Operator::Or
            | Operator::Xor
    );
    if is_settled && are_same(first, second, walk) {
        walk.findings.add(at, ConditionKind::EqualOperands);
    }
}

/// A compound assignment of a place to itself, or of what always gives 0.
pub(super) fn check_compound(
    operator: Operator,
    to: Target,
    value: &Expr<Target>,
    at: TokenIndex,
    walk: &mut Walk<'_, '_>,
) {
    check_operands(operator, &Expr::Reference(to), value, at, walk);
    check_set_bits(operator, to, value, at, walk);
    let number = evaluate(value, walk.sort).number();
    let is_zero = match operator {
        Operator::Multiply => number == Some(0),
        Operator::Remainder => matches!(number, Some(1 | -1)),
        _ => false,
    };
    if is_zero {
        walk.findings.add(at, ConditionKind::AlwaysZero);
    }
}

/// `&&` or `||` of the same twice, or of two comparisons of which never both hold, or always one.
pub(super) fn check_logical(
    first: &Expr<Target>,
    second: &Expr<Target>,
    sign: Logical,
    at: TokenIndex,
    walk: &mut Walk<'_, '_>,
) {
    let last = last_of(first, sign);
    if are_same(last, second, walk) {
        return walk.findings.add(at, ConditionKind::EqualOperands);
    }
    let bounds = bounds_of_one(last, second, walk.sort);
    let Some((one, other)) = bounds.or_else(|| bounds_of_two(last, second, walk)) else {
        return;
    };
    match sign {
        Logical::And if never_both(one, other) => walk.findings.add(at, ConditionKind::NeverBoth),
        Logical::Or if always_one(one, other) => walk.findings.add(at, ConditionKind::AlwaysOne),
        _ => {}
    }
}

/// A comparison with a number.
type Bound = (Comparison, i64);

// A place that is compared with a number, as if the place came first.
fn compared_with(e: &Expr<Target>, sort: Sort) -> Option<(Target, Bound)> {
    let Expr::Compare(comparison, first, second) = without_parentheses(e) else {
        return None;
    };
    let (target, comparison, other) = match referred(first) {
        Some(target) => (target, *comparison, second),
        None => (referred(second)?, turned(*comparison), first),
    };
    Some((target, (comparison, evaluate(other, sort).number()?)))
}

// What two comparisons of one place with numbers compare it with.
fn bounds_of_one(
    first: &Expr<Target>,
    second: &Expr<Target>,
    sort: Sort,
) -> Option<(Bound, Bound)> {
    let (place, one) = compared_with(first, sort)?;
    let (same, other) = compared_with(second, sort)?;
    (place == same).then_some((one, other))
}

// Two comparisons of the same two places, as comparisons of their difference with 0.
fn bounds_of_two(
    first: &Expr<Target>,
    second: &Expr<Target>,
    walk: &Walk<'_, '_>,
) -> Option<(Bound, Bound)> {
    let (Expr::Compare(one, a, b), Expr::Compare(other, c, d)) =
        (without_parentheses(first), without_parentheses(second))
    else {
        return None;
    };
    let other = if are_one_place(a, c, walk) && are_one_place(b, d, walk) {
        *other
    } else if are_one_place(a, d, walk) && are_one_place(b, c, walk) {
        turned(*other)
    } else {
        return None;
    };
    Some(((*one, 0), (other, 0)))
}

// The numbers at which one of two comparisons with numbers may change, and those beside them.
fn steps(one: Bound, other: Bound) -> impl Iterator<Item = i64> {
    [one.1, other.1]
        .into_iter()
        .flat_map(|number| [number.saturating_sub(1), number, number.saturating_add(1)])
}

fn never_both(one: Bound, other: Bound) -> bool {
    !steps(one, other).any(|number| holds(one.0, number, one.1) && holds(other.0, number, other.1))
}

fn always_one(one: Bound, other: Bound) -> bool {
    steps(one, other).all(|number| holds(one.0, number, one.1) || holds(other.0, number, other.1))
}

/// `? :` that chooses one of the same two.
pub(super) fn check_chosen(
    first: &Expr<Target>,
    second: &Expr<Target>,
    at: TokenIndex,
    walk: &mut Walk<'_, '_>,
) {
    let extents = [first, second].map(|e| walk.context.places.expression(e).extent);
    let [one, other] = extents;
    let are_written_alike = are_alike(one, other, walk.context.source);
    if are_same_values(first, second, walk) || are_written_alike {
        walk.findings.add(at, ConditionKind::EqualChoice);
    }
}

// The last operand of a chain of `&&` or of `||`.
fn last_of(e: &Expr<Target>, sign: Logical) -> &Expr<Target> {
    match e {
        Expr::LogicalAnd(_, last) if sign == Logical::And => last,
        Expr::LogicalOr(_, last) if sign == Logical::Or => last,
        _ => e,
    }
}

// What a comparison compares with a number.
fn compared_place(e: &Expr<Target>) -> Option<Target> {
    match without_parentheses(e) {
        Expr::Compare(_, first, second) => referred(first).or(referred(second)),
        _ => None,
    }
}

/// What two comparisons that follow each other both compare, as with the ends of a range.
pub(super) fn ranged_place(
    first: &Expr<Target>,
    second: &Expr<Target>,
    sign: Logical,
) -> Option<Target> {
    let place = compared_place(last_of(first, sign))?;
    (compared_place(second) == Some(place)).then_some(place)
}

/// The same comparison with its sides exchanged.
pub(crate) fn turned(comparison: Comparison) -> Comparison {
    match comparison {
        Comparison::Equal => Comparison::Equal,
        Comparison::NotEqual => Comparison::NotEqual,
        Comparison::Less => Comparison::Greater,
        Comparison::LessOrEqual => Comparison::GreaterOrEqual,
        Comparison::Greater => Comparison::Less,
        Comparison::GreaterOrEqual => Comparison::LessOrEqual,
    }
}

// What a comparison with a number gives for all numbers of a range.
fn settled(comparison: Comparison, range: Range, number: i64) -> Option<bool> {
    let Range { low, high } = range;
    let (holds, fails) = match comparison {
        Comparison::Equal => (false, !range.holds(number)),
        Comparison::NotEqual => (!range.holds(number), false),
        Comparison::Less => (high < number, number <= low),
        Comparison::LessOrEqual => (high <= number, number < low),
        Comparison::Greater => (number < low, high <= number),
        Comparison::GreaterOrEqual => (number <= low, high < number),
    };
    (holds || fails).then_some(holds)
}

/// The numbers that a variable is read as. With 32 bits those of four octets have a sign.
pub(crate) fn read_range(variable: u16, walk: &Walk<'_, '_>) -> Option<Range> {
    let (low, high) = (i64::from(i32::MIN), i64::from(i32::MAX));
    match walk.context.instrument.range(variable)? {
        range if walk.sort == Sort::Method && high < range.high => Some(Range { low, high }),
        range => Some(range),
    }
}

/// A comparison whose type or whose enumerators settle what it gives. Both ends of a range may be
/// written though one of them is that of the type.
pub(super) fn check_settled(compared: &Expr<Target>, at: TokenIndex, walk: &mut Walk<'_, '_>) {
    if let Expr::Compare(_, first, second) = compared
        && are_same(first, second, walk)
    {
        return walk.findings.add(at, ConditionKind::EqualOperands);
    }
    let Some((target, (comparison, number))) = compared_with(compared, walk.sort) else {
        return;
    };
    let Some(variable) = variable_of(target) else {
        return;
    };
    let Some(range) = read_range(variable, walk) else {
        return;
    };
    let is_equality = matches!(comparison, Comparison::Equal | Comparison::NotEqual);
    match settled(comparison, range, number) {
        Some(_) if !is_equality && walk.ranged == Some(target) => {}
        Some(gives) => walk.findings.add(at, ConditionKind::Settled(gives, range)),
        None if is_equality => check_listed(variable, number, at, walk),
        None if walk.ranged != Some(target) => {
            check_ordered(variable, (comparison, number), at, walk);
        }
        None => {}
    }
}

// An order that no enumerator of a variable has to a number. That all have it may be a careful test.
fn check_ordered(variable: u16, bound: Bound, at: TokenIndex, walk: &mut Walk<'_, '_>) {
    let known = walk.context.instrument.variable(variable);
    let Some(variable) = known.filter(|known| known.kind == Some(VarType::Enumerated)) else {
        return;
    };
    let mut enumerators = variable.enumerators.iter();
    let has_some = !variable.enumerators.is_empty();
    if has_some && !enumerators.any(|one| holds(bound.0, *one, bound.1)) {
        let name = variable.name().to_owned();
        walk.findings.add(at, VariableKind::NoneMeets(name));
    }
}

/// The label of a SELECT or a `switch` over a variable.
pub(crate) fn check_label(label: i64, at: TokenIndex, walk: &mut Walk<'_, '_>) {
    let Some(variable) = walk.selected.last().copied().flatten() else {
        return;
    };
    let Some(range) = read_range(variable, walk) else {
        return;
    };
    let label = wrapped(walk.sort, label);
    if !range.holds(label) {
        return walk
            .findings
            .add(at, ConditionKind::SettledCase(label, range));
    }
    let known = walk.context.instrument.variable(variable);
    if let Some(variable) = known.filter(|variable| variable.lacks(label)) {
        let name = variable.name().to_owned();
        walk.findings
            .add(at, VariableKind::UnlistedCase(label, name));
    }
    check_named_label(label, at, walk);
}

/// The variable that a SELECT or a `switch` is over.
pub(crate) fn selected_variable(e: &Expr<Target>) -> Option<u16> {
    variable_of(referred(e)?)
}
