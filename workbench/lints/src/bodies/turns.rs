//! Loops whose turns begin again before anything has changed, and tests of a counter behind the loop that has
//! counted past them.

use super::waits::Doings;
use crate::expressions::operands::referred;
use crate::expressions::stores::without_parentheses;
use crate::expressions::walk::Walk;
use crate::kind::MethodKind;
use crate::source::{TokenIndex, index};
use edd_constants::evaluate;
use edd_instructions::Sort;
use edd_syntax::expr::Expr;
use edd_syntax::operators::{Comparison, IncrementOperator, UnaryOperator};
use edd_syntax::reference::Target;
use edd_syntax::stmt::{Part, Stmt};

// The `continue` that a branch is, where it does nothing else.
fn only_continues(s: &Stmt<Target>) -> Option<TokenIndex> {
    match s {
        Stmt::Continue { at } => Some(index(*at)),
        Stmt::Block(parts) => match &**parts {
            [Part::Statement(inner)] => only_continues(inner),
            _ => None,
        },
        _ => None,
    }
}

/// Checks a `while` whose turn begins again, by a `continue`, before it has changed or asked for anything.
pub(super) fn check_same_turn(
    condition: &Expr<Target>,
    body: &Stmt<Target>,
    walk: &mut Walk<'_, '_>,
) {
    let Stmt::Block(parts) = body else {
        return;
    };
    if Doings::of_expression(condition).acts() {
        return;
    }
    for part in parts {
        let Part::Statement(s) = part else {
            return;
        };
        if let Stmt::If(test, branch) = s
            && let Some(at) = only_continues(branch)
            && !Doings::of_expression(test).acts()
        {
            return walk.findings.add(at, MethodKind::OpensSame);
        }
        if Doings::of(s).acts() {
            return;
        }
    }
}

/// A counter with what it is where the condition of its loop ends that, and what it was when the condition
/// was computed.
struct End {
    counter: Target,
    number: i64,
    tested: i64,
}

// What the counter is where a condition as `n-- > 0` does not hold.
fn end_of(condition: &Expr<Target>) -> Option<End> {
    let counted = |e: &Expr<Target>| match without_parentheses(e) {
        Expr::Increment(IncrementOperator::PostDecrement, counter) => Some((*counter, -1)),
        Expr::Increment(IncrementOperator::PostIncrement, counter) => Some((*counter, 1)),
        _ => None,
    };
    let (counter, step, tested) = match without_parentheses(condition) {
        Expr::Compare(comparison, first, second) => {
            let (counter, step) = counted(first)?;
            let limit = evaluate(second, Sort::Method).number()?;
            let tested = match (comparison, step) {
                (Comparison::Greater, -1) | (Comparison::Less, 1) | (Comparison::NotEqual, _) => {
                    limit
                }
                (Comparison::GreaterOrEqual, -1) => limit.checked_sub(1)?,
                (Comparison::LessOrEqual, 1) => limit.checked_add(1)?,
                _ => return None,
            };
            (counter, step, tested)
        }
        e => {
            let (counter, step) = counted(e)?;
            (counter, step, 0)
        }
    };
    Some(End {
        counter,
        number: tested.checked_add(step)?,
        tested,
    })
}

// Whether a condition compares a counter with the number that it was one step before.
fn tests_before(condition: &Expr<Target>, end: &End) -> bool {
    match without_parentheses(condition) {
        Expr::Unary(UnaryOperator::Not, inner) => {
            referred(inner) == Some(end.counter) && end.tested == 0
        }
        Expr::Compare(Comparison::Equal | Comparison::NotEqual, first, second) => {
            referred(first) == Some(end.counter)
                && evaluate(second, Sort::Method).number() == Some(end.tested)
        }
        _ => false,
    }
}

/// Checks the test of a counter right behind a loop that a `break` may leave.
pub(super) fn check_end(s: &Stmt<Target>, next: Option<&Part<Target>>, walk: &mut Walk<'_, '_>) {
    let (condition, body) = match s {
        Stmt::While(condition, body)
        | Stmt::For {
            condition: Some(condition),
            update: None,
            body,
            ..
        } => (condition, body),
        _ => return,
    };
    let Some(Part::Statement(Stmt::If(test, _) | Stmt::IfElse(test, ..))) = next else {
        return;
    };
    let Some(end) = end_of(condition).filter(|end| tests_before(test, end)) else {
        return;
    };
    let doings = Doings::of(body);
    if doings.ends && !doings.sets.contains(&end.counter) {
        let at = walk.context.places.sign(without_parentheses(test));
        let name = walk.name_of(end.counter, test);
        walk.findings
            .add(at, MethodKind::MissedEnd(name, end.number));
    }
}
