//! Expressions of attributes and of methods.

mod bindings;
pub(crate) mod calls;
pub(crate) mod choices;
pub(crate) mod operands;
pub(crate) mod slips;
pub(crate) mod stores;
pub(crate) mod walk;

use crate::kind::{ConditionKind, MethodKind};
use crate::source::TokenIndex;
use crate::units::check_two_units;
use bindings::{
    check_added_state, check_added_truth, check_negated_mask, check_negated_number,
    check_shifted_sum,
};
use calls::check_call;
use choices::{check_choices, check_delay};
use edd_arithmetic::trap_of;
use edd_constants::{Known, evaluate, is_literal};
use edd_syntax::answer::Trap;
use edd_syntax::expr::{Argument, Expr};
use edd_syntax::numbers::ItemNo;
use edd_syntax::operators::{Builtin, Comparison, Operator, RequestKind};
use edd_syntax::reference::Target;
use operands::{
    Logical, check_bits, check_chosen, check_compared, check_compound, check_logical,
    check_operands, check_settled, ranged_place, referred,
};
use slips::{
    check_answer, check_argument, check_assigned_operand, check_binary, check_changed_bits,
    check_code, check_entered_order, check_named, check_reversed, check_stepped,
    check_truth_of_number,
};
use stores::{check_assigned, check_stored, check_wrapped, is_itself};
use walk::Walk;

/// What a condition is for.
#[derive(Clone, Copy, PartialEq, Eq)]
pub(crate) enum Test {
    /// It is compared with 0.
    Condition,
    /// A `switch` is over it.
    Selection,
}

// What can trap after an abort method was added.
fn check_late_trap(at: TokenIndex, walk: &mut Walk<'_, '_>) {
    if walk.has_abort_method {
        walk.findings.add(at, ConditionKind::LateTrap);
    }
}

// An operator with this second operand, which traps where it does not take it.
fn check_trap(operator: Operator, second: &Expr<Target>, at: TokenIndex, walk: &mut Walk<'_, '_>) {
    let may_trap = matches!(
        operator,
        Operator::Divide | Operator::Remainder | Operator::ShiftLeft | Operator::ShiftRight
    );
    if !may_trap {
        return;
    }
    let Known::Number(number) = evaluate(second, walk.sort) else {
        return check_late_trap(at, walk);
    };
    match trap_of(walk.sort, operator, number) {
        Some(Trap::DivZero) => walk.findings.add(at, ConditionKind::DivisionByZero),
        Some(_) => walk.findings.add(at, ConditionKind::BadShift(number)),
        None => {}
    }
}

// A sum or a difference of two values.
fn check_sum_units(
    operator: Operator,
    first: &Expr<Target>,
    second: &Expr<Target>,
    at: TokenIndex,
    walk: &mut Walk<'_, '_>,
) {
    let is_sum = matches!(operator, Operator::Add | Operator::Subtract);
    if let Some(place) = referred(first).filter(|_| is_sum) {
        check_two_units(place, second, at, walk);
    }
}

// A constant number of an element that the array does not have.
fn check_index(array: Target, index: &Expr<Target>, at: TokenIndex, walk: &mut Walk<'_, '_>) {
    let Target::Item(ItemNo::Array(array)) = array else {
        return;
    };
    match evaluate(index, walk.sort) {
        Known::Number(number) if !walk.context.instrument.has_element(array.0, number) => {
            walk.findings.add(at, ConditionKind::MissingElement(number));
        }
        Known::Nothing => check_late_trap(at, walk),
        _ => {}
    }
}

fn check_comparison(e: &Expr<Target>, at: TokenIndex, is_statement: bool, walk: &mut Walk<'_, '_>) {
    let Expr::Compare(comparison, first, second) = e else {
        return;
    };
    if is_statement {
        walk.expect(first);
    }
    check_expression(first, false, walk);
    if is_statement {
        walk.findings.add(at, MethodKind::DroppedComparison);
    }
    let is_misread =
        check_compared(first, second, at, walk) || check_added_state(first, second, at, walk);
    if let Some(place) = referred(first) {
        check_two_units(place, second, at, walk);
    }
    if !is_misread && !is_statement {
        check_settled(e, at, walk);
    }
    if matches!(comparison, Comparison::Equal | Comparison::NotEqual) {
        check_named(first, second, at, walk);
        check_code(*comparison, first, second, at, walk);
    } else {
        check_entered_order(first, second, at, walk);
        check_wrapped(second, walk);
    }
    check_expression(second, false, walk);
}

fn check_assignment(to: Target, value: &Expr<Target>, at: TokenIndex, walk: &mut Walk<'_, '_>) {
    check_two_units(to, value, at, walk);
    check_assigned(to, value, at, walk);
    check_stored(to, value, at, walk);
    check_reversed(value, at, walk);
    check_stepped(to, value, at, walk);
    check_answer(to, value, at, walk);
    if let Target::Local(_) = to {
        check_wrapped(value, walk);
    }
    let before = walk.assigned.replace(to);
    check_expression(value, false, walk);
    walk.assigned = before;
    // An assignment of a place to itself is told as that alone.
    if is_itself(to, value) {
        walk.change(to);
    } else {
        walk.write(to);
    }
}

/// Checks an expression. The value of a statement's is not used, in parentheses or not.
pub(crate) fn check_expression(e: &Expr<Target>, is_statement: bool, walk: &mut Walk<'_, '_>) {
    let at = walk.context.places.sign(e);
    match e {
        Expr::Literal(_) | Expr::Decimal { .. } => {}
        Expr::Reference(to) => walk.read(*to),
        Expr::Increment(_, to) if is_statement => walk.count(*to),
        Expr::Increment(_, to) => walk.change(*to),
        Expr::Indexed(array, index) => {
            check_index(*array, index, at, walk);
            walk.read(*array);
            check_expression(index, false, walk);
        }
        Expr::Parentheses(inner) => check_expression(inner, is_statement, walk),
        Expr::Unary(operator, inner) => {
            check_negated_number(*operator, inner, at, walk);
            check_expression(inner, false, walk);
        }
        Expr::Binary(operator, first, second) => {
            check_expression(first, false, walk);
            check_shifted_sum(*operator, first, second, at, walk);
            check_negated_mask(*operator, first, second, at, walk);
            check_sum_units(*operator, first, second, at, walk);
            check_bits(*operator, first, second, at, walk);
            check_operands(*operator, first, second, at, walk);
            check_binary(*operator, first, second, at, walk);
            check_trap(*operator, second, at, walk);
            check_expression(second, false, walk);
        }
        Expr::Compare(..) => check_comparison(e, at, is_statement, walk),
        Expr::LogicalAnd(first, second) => check_operator(Logical::And, first, second, at, walk),
        Expr::LogicalOr(first, second) => check_operator(Logical::Or, first, second, at, walk),
        Expr::Conditional(test, first, second) => {
            check_added_truth(test, walk);
            check_expression(test, false, walk);
            check_chosen(first, second, at, walk);
            check_expression(first, false, walk);
            check_expression(second, false, walk);
        }
        Expr::Assign(to, value) => {
            check_assignment(*to, value, at, walk);
            if !is_statement {
                walk.read(*to);
            }
        }
        Expr::CompoundAssign(operator, to, value) => {
            check_trap(*operator, value, at, walk);
            if matches!(operator, Operator::Add | Operator::Subtract) {
                check_two_units(*to, value, at, walk);
            }
            check_changed_bits(*operator, *to, value, at, walk);
            check_negated_mask(*operator, &Expr::Reference(*to), value, at, walk);
            check_compound(*operator, *to, value, at, walk);
            check_expression(value, false, walk);
            if is_statement {
                walk.count(*to);
            } else {
                walk.change(*to);
            }
        }
        Expr::Call {
            function,
            arguments,
            ..
        } => check_arguments_and_call(*function, arguments, at, walk),
    }
}

fn check_operator(
    sign: Logical,
    first: &Expr<Target>,
    second: &Expr<Target>,
    at: TokenIndex,
    walk: &mut Walk<'_, '_>,
) {
    let before = walk.ranged;
    walk.ranged = ranged_place(first, second, sign).or(before);
    check_expression(first, false, walk);
    check_logical(first, second, sign, at, walk);
    check_truth_of_number([first, second], at, walk);
    check_assigned_operand(first, walk);
    check_assigned_operand(second, walk);
    check_expression(second, false, walk);
    walk.ranged = before;
}

fn check_arguments_and_call(
    function: Target,
    arguments: &[Argument<Target>],
    at: TokenIndex,
    walk: &mut Walk<'_, '_>,
) {
    for argument in arguments {
        if let Argument::Value(e) = argument {
            check_expression(e, false, walk);
        }
    }
    if let Target::Function(function) = function {
        if let Builtin::Ask(request) = function {
            walk.ask();
            check_argument(request, arguments, at, walk);
            match request {
                RequestKind::SelectFromList => check_choices(arguments, at, walk),
                RequestKind::Delay => check_delay(arguments, at, walk),
                _ => {}
            }
        }
        check_call(function, arguments, at, walk);
    }
}

/// Checks a condition, or what is selected on: whether it never changes, and whether it assigns.
pub(crate) fn check_condition(
    e: &Expr<Target>,
    at: TokenIndex,
    test: Test,
    walk: &mut Walk<'_, '_>,
) {
    if let Known::Number(number) = evaluate(e, walk.sort) {
        let kind = if is_literal(e) {
            ConditionKind::Literal(number)
        } else {
            ConditionKind::Constant(number)
        };
        walk.findings.add(at, kind);
    }
    check_tested(e, test, walk);
}

/// The same of a loop's condition, which may never change.
pub(crate) fn check_tested(e: &Expr<Target>, test: Test, walk: &mut Walk<'_, '_>) {
    // An assignment of a place to itself is reported as that.
    if let Expr::Assign(to, value) = e
        && !is_itself(*to, value)
    {
        let kind = match test {
            Test::Condition => MethodKind::AssignedCondition,
            Test::Selection => MethodKind::AssignedSelection,
        };
        walk.findings.add(walk.context.places.sign(e), kind);
    }
    check_expression(e, false, walk);
}
