//! Operators that are almost certainly not meant: bits where truth is, constants that swallow an
//! operand, and sums that do not fit.

use super::operands::{joins_bits, referred};
use super::stores::without_parentheses;
use super::walk::Walk;
use crate::instrument::variable_of;
use crate::kind::{ConditionKind, MethodKind};
use crate::source::TokenIndex;
use crate::traits::classes_of;
use edd_constants::{Known, evaluate};
use edd_instructions::Sort;
use edd_source::{Confidence, Edit, Fix};
use edd_syntax::expr::{Argument, Expr};
use edd_syntax::operators::{Builtin, Comparison, Operator, RequestKind, UnaryOperator};
use edd_syntax::reference::Target;
use edd_syntax::types::VarType;

/// The codes that a command lists. Beyond them are those of the host and the line.
pub(crate) const LISTED_CODES: std::ops::RangeInclusive<i64> = 1..=127;

/// `&&` or `||` with a number that is neither 0 nor 1, as a macro may leave them.
pub(super) fn check_truth_of_number(
    operands: [&Expr<Target>; 2],
    at: TokenIndex,
    walk: &mut Walk<'_, '_>,
) {
    // Beside a comparison with a number 1 is what was to be compared too, and no macro.
    let least = if operands.iter().any(|e| compares_number(e)) {
        1
    } else {
        2
    };
    let number = operands.iter().find_map(|e| match without_parentheses(e) {
        Expr::Literal(number) if least <= *number => Some(*number),
        _ => None,
    });
    let Some(number) = number else {
        return;
    };
    let kind = ConditionKind::TruthOfNumber(number);
    if operands.iter().any(|e| is_of_bits(e, walk)) {
        let span = walk.context.source.span(at);
        let sign = walk.context.source.word(at).get(..1).unwrap_or_default();
        let edits = vec![Edit {
            span,
            text: sign.to_owned(),
        }];
        let confidence = Confidence::Guess;
        walk.findings.add_fixed(at, kind, Fix { edits, confidence });
    } else {
        walk.findings.add(at, kind);
    }
}

// Whether an expression is whether something is a plain number, or is not.
fn compares_number(e: &Expr<Target>) -> bool {
    match without_parentheses(e) {
        Expr::Compare(Comparison::Equal | Comparison::NotEqual, first, second) => {
            let is_plain = |e: &Expr<Target>| matches!(without_parentheses(e), Expr::Literal(_));
            referred(first).is_some() && is_plain(second)
        }
        _ => false,
    }
}

fn is_of_bits(e: &Expr<Target>, walk: &Walk<'_, '_>) -> bool {
    let variable = referred(e).and_then(variable_of);
    let known = variable.and_then(|number| walk.context.instrument.variable(number));
    known.is_some_and(|known| known.kind == Some(VarType::BitEnumerated))
}

/// An operand of `&&` or `||` that sets something to a constant: it is always true, or never.
pub(super) fn check_assigned_operand(e: &Expr<Target>, walk: &mut Walk<'_, '_>) {
    let e = without_parentheses(e);
    if let Expr::Assign(_, value) = e
        && evaluate(value, walk.sort).number().is_some()
    {
        let at = walk.context.places.sign(e);
        walk.findings.add(at, MethodKind::AssignedCondition);
    }
}

/// An operator on two numbers.
pub(super) fn check_binary(
    operator: Operator,
    first: &Expr<Target>,
    second: &Expr<Target>,
    at: TokenIndex,
    walk: &mut Walk<'_, '_>,
) {
    check_negated(operator, first, second, at, walk);
    check_signs(operator, second, at, walk);
    let (one, other) = (evaluate(first, walk.sort), evaluate(second, walk.sort));
    match (one, other) {
        (Known::Number(a), Known::Number(b)) => {
            check_constants(operator, [first, second], [a, b], at, walk)
        }
        (Known::Nothing, _) | (_, Known::Nothing)
            if matches!(operator, Operator::Multiply | Operator::And)
                && [first, second].into_iter().any(is_zero) =>
        {
            walk.findings.add(at, ConditionKind::AlwaysZero);
        }
        (Known::Nothing, Known::Number(1 | -1)) if operator == Operator::Remainder => {
            walk.findings.add(at, ConditionKind::AlwaysZero);
        }
        _ => {}
    }
    check_quotients(operator, [first, second], walk);
    if joins_bits(operator) {
        check_masked(first, mask_of(operator, second), at, walk);
        check_masked(second, mask_of(operator, first), at, walk);
    }
}

// The bits that a mask has, or those that `& ~` clears.
fn mask_of(operator: Operator, mask: &Expr<Target>) -> &Expr<Target> {
    match without_parentheses(mask) {
        Expr::Unary(UnaryOperator::Complement, inner) if operator == Operator::And => inner,
        _ => mask,
    }
}

// A quotient of two constants that is multiplied: what is behind its point is lost before.
fn check_quotients(operator: Operator, operands: [&Expr<Target>; 2], walk: &mut Walk<'_, '_>) {
    let sort = walk.sort;
    let is_plain = operands
        .iter()
        .all(|e| evaluate(e, sort).number().is_some());
    if operator != Operator::Multiply || is_plain {
        return;
    }
    for e in operands {
        let e = without_parentheses(e);
        let Expr::Binary(Operator::Divide, first, second) = e else {
            continue;
        };
        let numbers = evaluate(first, sort)
            .number()
            .zip(evaluate(second, sort).number());
        let Some((a, b)) = numbers else {
            continue;
        };
        let is_cut = a.checked_rem(b).is_some_and(|rest| rest != 0);
        if let Some(quotient) = a.checked_div(b).filter(|number| is_cut && *number != 0) {
            let at = walk.context.places.sign(e);
            walk.findings.add(at, ConditionKind::CutQuotient(quotient));
        }
    }
}

// Whether two plain decimal numbers with ^ between look like a power.
fn is_power(operator: Operator, [first, second]: [&Expr<Target>; 2], walk: &Walk<'_, '_>) -> bool {
    let is_decimal = |e: &Expr<Target>| {
        let word = walk.context.source.word(walk.context.places.sign(e));
        matches!(e, Expr::Literal(_)) && !word.starts_with("0x") && !word.starts_with("0X")
    };
    operator == Operator::Xor
        && matches!(first, Expr::Literal(2 | 10))
        && is_decimal(first)
        && is_decimal(second)
}

fn is_zero(e: &Expr<Target>) -> bool {
    matches!(without_parentheses(e), Expr::Literal(0))
}

// `!a & b`, where `!` comes first. `!a & !b` and `!a & (b == c)` are of truths on both sides.
fn check_negated(
    operator: Operator,
    first: &Expr<Target>,
    second: &Expr<Target>,
    at: TokenIndex,
    walk: &mut Walk<'_, '_>,
) {
    let is_negated = matches!(first, Expr::Unary(UnaryOperator::Not, _));
    let is_truth = matches!(
        without_parentheses(second),
        Expr::Unary(UnaryOperator::Not, _)
            | Expr::Compare(..)
            | Expr::LogicalAnd(..)
            | Expr::LogicalOr(..)
    );
    if joins_bits(operator) && is_negated && !is_truth {
        walk.findings.add(at, ConditionKind::NegatedFirst);
    }
}

// `a + + b`, where one of the signs does nothing.
fn check_signs(operator: Operator, second: &Expr<Target>, at: TokenIndex, walk: &mut Walk<'_, '_>) {
    let is_sum = matches!(operator, Operator::Add | Operator::Subtract);
    if is_sum && matches!(second, Expr::Unary(UnaryOperator::Plus, _)) {
        walk.findings.add(at, ConditionKind::DoubleSign);
    }
}

// Bits are meant where a number has the greatest bit.
fn is_of_greatest_bit(e: &Expr<Target>) -> bool {
    matches!(without_parentheses(e), Expr::Literal(number) if i32::try_from(*number).is_err())
}

fn check_constants(
    operator: Operator,
    operands: [&Expr<Target>; 2],
    [a, b]: [i64; 2],
    at: TokenIndex,
    walk: &mut Walk<'_, '_>,
) {
    if operator == Operator::Divide && a != 0 && b != 0 && a.unsigned_abs() < b.unsigned_abs() {
        return walk.findings.add(at, ConditionKind::ZeroQuotient);
    }
    if is_power(operator, operands, walk) {
        return walk.findings.add(at, ConditionKind::NoPower(a ^ b));
    }
    if walk.sort == Sort::Attribute || operands.iter().any(|e| is_of_greatest_bit(e)) {
        return;
    }
    let exact = match operator {
        Operator::Add => a.checked_add(b),
        Operator::Subtract => a.checked_sub(b),
        Operator::Multiply => a.checked_mul(b),
        _ => None,
    };
    if let Some(exact) = exact.filter(|exact| i32::try_from(*exact).is_err()) {
        walk.findings.add(at, ConditionKind::Overflow(exact));
    }
}

// The variable of bits that an expression is, and what of a number no enumerator of it names.
fn unnamed_bits(e: &Expr<Target>, number: i64, walk: &Walk<'_, '_>) -> Option<(String, i64)> {
    let variable = referred(e).and_then(variable_of)?;
    let variable = walk.context.instrument.variable(variable)?;
    let named = variable.named_bits()?;
    Some((variable.name().to_owned(), number & !named))
}

// A mask all of whose bits no enumerator names.
fn check_masked(e: &Expr<Target>, mask: &Expr<Target>, at: TokenIndex, walk: &mut Walk<'_, '_>) {
    let Some(number) = evaluate(mask, walk.sort)
        .number()
        .filter(|number| *number != 0)
    else {
        return;
    };
    if let Some((name, unnamed)) = unnamed_bits(e, number, walk)
        && unnamed == number
    {
        walk.findings
            .add(at, ConditionKind::UnnamedBits(number, name));
    }
}

/// A number that a variable of bits is compared with, or set to, and that has bits which no
/// enumerator names.
pub(super) fn check_named(
    e: &Expr<Target>,
    value: &Expr<Target>,
    at: TokenIndex,
    walk: &mut Walk<'_, '_>,
) {
    if let Expr::Unary(UnaryOperator::Complement, _) = without_parentheses(value) {
        return;
    }
    let Some(number) = evaluate(value, walk.sort).number() else {
        return;
    };
    if let Some((name, unnamed)) = unnamed_bits(e, number, walk)
        && unnamed != 0
    {
        walk.findings
            .add(at, ConditionKind::UnnamedBits(number, name));
    }
}

/// Bits that are set in a variable of bits and that no enumerator names.
pub(super) fn check_changed_bits(
    operator: Operator,
    to: Target,
    value: &Expr<Target>,
    at: TokenIndex,
    walk: &mut Walk<'_, '_>,
) {
    match operator {
        Operator::Or | Operator::Xor => check_named(&Expr::Reference(to), value, at, walk),
        Operator::And => check_masked(&Expr::Reference(to), mask_of(operator, value), at, walk),
        _ => {}
    }
}

/// The label of a SELECT or a `switch` over a variable of bits.
pub(crate) fn check_named_label(label: i64, at: TokenIndex, walk: &mut Walk<'_, '_>) {
    let number = walk.selected.last().copied().flatten();
    let known = number.and_then(|number| walk.context.instrument.variable(number));
    let Some(variable) = known else {
        return;
    };
    if variable
        .named_bits()
        .is_some_and(|named| label & !named != 0)
    {
        let name = variable.name().to_owned();
        walk.findings
            .add(at, ConditionKind::UnnamedBits(label, name));
    }
}

/// The signs of an assignment that is written as one sign in the wrong order, as in `a =+ 1`.
pub(super) fn check_reversed(value: &Expr<Target>, at: TokenIndex, walk: &mut Walk<'_, '_>) {
    let Expr::Unary(operator, _) = value else {
        return;
    };
    let source = walk.context.source;
    let sign = walk.context.places.sign(value);
    let ends = [at, sign, sign.saturating_add(1)].map(|token| source.span(token));
    let [equals, second, operand] = ends;
    let is_one_sign = equals.end == second.start && second.end < operand.start;
    if !is_one_sign || source.gap_before(at).is_empty() || *operator == UnaryOperator::Complement {
        return;
    }
    let sign = source.word(sign).to_owned();
    walk.findings.add(at, MethodKind::ReversedAssignment(sign));
}

/// An assignment of what counts the place itself, as in `i = i++`.
pub(super) fn check_stepped(
    to: Target,
    value: &Expr<Target>,
    at: TokenIndex,
    walk: &mut Walk<'_, '_>,
) {
    if matches!(without_parentheses(value), Expr::Increment(_, from) if *from == to) {
        walk.findings.add(at, MethodKind::SteppedAssignment);
    }
}

/// An assignment to a variable of the code with which its own entry was answered.
pub(super) fn check_answer(
    to: Target,
    value: &Expr<Target>,
    at: TokenIndex,
    walk: &mut Walk<'_, '_>,
) {
    let Expr::Call {
        function: Target::Function(Builtin::Ask(RequestKind::GetDevVarValue)),
        arguments,
        ..
    } = without_parentheses(value)
    else {
        return;
    };
    let known = variable_of(to).and_then(|number| walk.context.instrument.variable(number));
    let Some(variable) = known else {
        return;
    };
    // A variable of the host may keep a code.
    if super::calls::target_of_argument(arguments, 1) == Some(to) {
        let name = variable.name().to_owned();
        walk.findings.add(at, MethodKind::StoredAnswer(name));
    } else if !classes_of(variable).contains("LOCAL") {
        walk.findings.add(at, MethodKind::StoredCode);
    }
}

/// An order of the code with which an entry was answered to a number other than 0.
pub(super) fn check_entered_order(
    first: &Expr<Target>,
    second: &Expr<Target>,
    at: TokenIndex,
    walk: &mut Walk<'_, '_>,
) {
    let is_entry = matches!(
        without_parentheses(first),
        Expr::Call {
            function: Target::Function(Builtin::Ask(RequestKind::GetDevVarValue)),
            ..
        }
    );
    let number = evaluate(second, walk.sort).number();
    if is_entry && number.is_some_and(|number| number != 0) {
        walk.findings.add(at, MethodKind::ComparedAnswer);
    }
}

/// A comparison of the answer of a command with a code that it does not list.
pub(super) fn check_code(
    comparison: Comparison,
    first: &Expr<Target>,
    second: &Expr<Target>,
    at: TokenIndex,
    walk: &mut Walk<'_, '_>,
) {
    let is_equality = matches!(comparison, Comparison::Equal | Comparison::NotEqual);
    let Expr::Call {
        function: Target::Function(Builtin::Ask(request)),
        arguments,
        ..
    } = without_parentheses(first)
    else {
        return;
    };
    let code = evaluate(second, walk.sort).number();
    let Some(code) = code.filter(|code| LISTED_CODES.contains(code) && is_equality) else {
        return;
    };
    match request {
        RequestKind::SendCommand | RequestKind::SendCommandTrans => {
            let command = super::calls::number_of_argument(arguments, 0);
            let is_lacking = |command: &i64| walk.context.instrument.lacks_code(*command, code);
            if let Some(command) = command.filter(is_lacking) {
                walk.findings
                    .add(at, MethodKind::UnlistedCode(code, command));
            }
        }
        RequestKind::SelectFromList => {
            let choices = super::choices::count_choices(arguments);
            if choices.is_some_and(|choices| choices <= code) {
                walk.findings.add(at, MethodKind::MissingChoice(code));
            }
        }
        _ => {}
    }
}

/// A comparison as the argument of a request that takes a number.
pub(super) fn check_argument(
    request: RequestKind,
    arguments: &[Argument<Target>],
    at: TokenIndex,
    walk: &mut Walk<'_, '_>,
) {
    let takes_number = matches!(
        request,
        RequestKind::SendCommand | RequestKind::SendCommandTrans | RequestKind::Delay
    );
    let is_truth = |argument: &Argument<Target>| match argument {
        Argument::Value(e) => matches!(
            without_parentheses(e),
            Expr::Compare(..) | Expr::LogicalAnd(..) | Expr::LogicalOr(..)
        ),
        Argument::Text(_) => false,
    };
    if takes_number && arguments.iter().any(is_truth) {
        walk.findings.add(at, MethodKind::ComparedArgument);
    }
}
