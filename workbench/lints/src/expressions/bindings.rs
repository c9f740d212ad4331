//! Sums where another operator was to come first: before `<<`, before a comparison, and before `?`; and `!`
//! of a number.

use super::operands::{joins_bits, referred};
use super::stores::without_parentheses;
use super::walk::Walk;
use crate::instrument::variable_of;
use crate::kind::ConditionKind;
use crate::source::TokenIndex;
use edd_constants::evaluate;
use edd_syntax::expr::Expr;
use edd_syntax::operators::{Comparison, Operator, UnaryOperator};
use edd_syntax::reference::Target;
use edd_syntax::types::VarType;

/// Shifts by whole octets, with which numbers are put together.
const OCTETS: [i64; 3] = [8, 16, 24];

// The operands of a sum that stands in no parentheses.
fn bare_sum(e: &Expr<Target>) -> Option<(&Expr<Target>, &Expr<Target>)> {
    match e {
        Expr::Binary(Operator::Add | Operator::Subtract, first, second) => Some((first, second)),
        _ => None,
    }
}

/// A shift by a sum that begins with a number, as `a << 8 + b`, and a shift of a sum by octets, as
/// `a + b << 8`. `1 << n - 1` is a habit.
pub(super) fn check_shifted_sum(
    operator: Operator,
    first: &Expr<Target>,
    second: &Expr<Target>,
    at: TokenIndex,
    walk: &mut Walk<'_, '_>,
) {
    if !matches!(operator, Operator::ShiftLeft | Operator::ShiftRight) {
        return;
    }
    let sort = walk.sort;
    let number = |e| evaluate(e, sort).number();
    let is_joined = |e| number(e).is_none();
    let shifts_by = bare_sum(second)
        .is_some_and(|(by, other)| number(by).is_some() && is_joined(other) && is_joined(first));
    let shifts_all = operator == Operator::ShiftLeft
        && bare_sum(first).is_some_and(|(one, other)| is_joined(one) && is_joined(other))
        && number(second).is_some_and(|by| OCTETS.contains(&by));
    if shifts_by || shifts_all {
        walk.findings.add(at, ConditionKind::ShiftedSum);
    }
}

fn kind_of(e: &Expr<Target>, walk: &Walk<'_, '_>) -> Option<VarType> {
    let variable = walk
        .context
        .instrument
        .variable(variable_of(referred(e)?)?)?;
    variable.kind
}

/// A comparison of a sum whose last operand is a variable of enumerators, as in `a + mode == 1`. Returns
/// whether it is one.
pub(super) fn check_added_state(
    first: &Expr<Target>,
    second: &Expr<Target>,
    at: TokenIndex,
    walk: &mut Walk<'_, '_>,
) -> bool {
    let is_state =
        |e: &Expr<Target>, walk: &Walk<'_, '_>| kind_of(e, walk) == Some(VarType::Enumerated);
    let Expr::Binary(operator, amount, state) = first else {
        return false;
    };
    let is_added = !joins_bits(*operator) && *operator != Operator::Remainder;
    let is_amount = evaluate(amount, walk.sort).number().is_none() && !is_state(amount, walk);
    let number = evaluate(second, walk.sort).number();
    let is_told = is_added && is_amount && is_state(state, walk) && number.is_some();
    if is_told {
        walk.findings.add(at, ConditionKind::AddedState);
    }
    is_told
}

/// A `? :` over a sum of something and a truth, as in `a + (b == 1) ? 5 : 0`.
pub(super) fn check_added_truth(test: &Expr<Target>, walk: &mut Walk<'_, '_>) {
    let Expr::Binary(Operator::Add | Operator::Subtract | Operator::Multiply, _, last) = test
    else {
        return;
    };
    let is_truth = matches!(
        without_parentheses(last),
        Expr::Compare(..) | Expr::LogicalAnd(..) | Expr::LogicalOr(..)
    );
    if is_truth {
        let at = walk.context.places.sign(test);
        walk.findings.add(at, ConditionKind::AddedState);
    }
}

/// `!` of a number other than 0 and 1, which inverts no bits.
pub(super) fn check_negated_number(
    operator: UnaryOperator,
    inner: &Expr<Target>,
    at: TokenIndex,
    walk: &mut Walk<'_, '_>,
) {
    let is_number = matches!(without_parentheses(inner), Expr::Literal(number) if 1 < *number);
    if operator == UnaryOperator::Not && is_number {
        walk.findings.add(at, ConditionKind::NegatedNumber);
    }
}

/// Bits of a variable that are joined with what `!` gives, as in `flags & !mask`.
pub(super) fn check_negated_mask(
    operator: Operator,
    first: &Expr<Target>,
    second: &Expr<Target>,
    at: TokenIndex,
    walk: &mut Walk<'_, '_>,
) {
    let is_negated = match without_parentheses(second) {
        Expr::Unary(UnaryOperator::Not, inner) => {
            !matches!(without_parentheses(inner), Expr::Literal(_))
                && !matches!(
                    without_parentheses(inner),
                    Expr::Compare(Comparison::Equal, ..)
                )
        }
        _ => false,
    };
    if joins_bits(operator) && is_negated && kind_of(first, walk) == Some(VarType::BitEnumerated) {
        walk.findings.add(at, ConditionKind::NegatedMask);
    }
}
