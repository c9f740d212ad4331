//! Loops that nothing ends, that never run, or that count away from their limits.

use super::flow::Flow;
use crate::expressions::operands::{referred, turned};
use crate::expressions::walk::{Use, Walk};
use crate::kind::{ConditionKind, MethodKind};
use crate::source::TokenIndex;
use edd_arithmetic::holds;
use edd_constants::{Known, evaluate, is_literal};
use edd_instructions::Sort;
use edd_syntax::expr::Expr;
use edd_syntax::numbers::ItemNo;
use edd_syntax::operators::{Comparison, IncrementOperator, Operator};
use edd_syntax::reference::Target;
use edd_syntax::stmt::Stmt;
use std::collections::BTreeSet;
use std::ops::Range;

/// A loop whose parts are checked.
pub(super) struct Loop<'e> {
    /// Its word.
    pub(super) at: TokenIndex,
    /// The word before its condition.
    pub(super) test_at: TokenIndex,
    /// A missing condition always holds.
    pub(super) condition: Option<&'e Expr<Target>>,
    /// Whether the condition comes after the body.
    pub(super) is_do: bool,
    /// Whether the host is asked outside of the body.
    pub(super) asks: bool,
    /// Where its turns begin in what was read and set.
    pub(super) from: usize,
    /// Where its condition is in what was read and set.
    pub(super) test: Range<usize>,
}

/// The parts of the head of a `for`.
pub(super) type Head<'e> = [&'e Option<Expr<Target>>; 3];

/// What a loop reads and sets. All elements of arrays are one place.
#[derive(Clone, Copy, PartialEq, Eq, PartialOrd, Ord)]
enum Storage {
    Local(u8),
    Elements,
    Variable(u16),
}

fn storage_of(target: Target) -> Option<Storage> {
    match target {
        Target::Local(slot) => Some(Storage::Local(slot)),
        Target::Item(ItemNo::Array(_)) => Some(Storage::Elements),
        Target::Item(ItemNo::Variable(variable)) => Some(Storage::Variable(variable.0)),
        _ => None,
    }
}

// Whether one of the places is set. A variable may be an element.
fn sets(uses: &[Use], places: &BTreeSet<Storage>) -> bool {
    uses.iter().any(|one| match one {
        Use::Write(target) => storage_of(*target).is_some_and(|place| {
            let may_be_element = matches!(place, Storage::Variable(_));
            places.contains(&place) || (may_be_element && places.contains(&Storage::Elements))
        }),
        Use::Read(_) => false,
    })
}

// Whether nothing that the condition reads is set in the loop.
fn is_unchanging(looped: &Loop<'_>, walk: &Walk<'_, '_>) -> bool {
    let test = walk.uses.get(looped.test.clone()).unwrap_or_default();
    let turns = walk.uses.get(looped.from..).unwrap_or_default();
    let places: BTreeSet<_> = test
        .iter()
        .filter_map(|one| match one {
            Use::Read(target) => storage_of(*target),
            Use::Write(_) => None,
        })
        .collect();
    !places.is_empty() && !sets(turns, &places)
}

// A condition that never changes. A plain number says so on purpose.
fn add_constant(looped: &Loop<'_>, number: i64, walk: &mut Walk<'_, '_>) {
    if looped.condition.is_some_and(|e| !is_literal(e)) {
        walk.findings
            .add(looped.test_at, ConditionKind::Constant(number));
    }
}

/// Checks a loop with its body.
pub(super) fn check_loop(looped: &Loop<'_>, body: Flow, walk: &mut Walk<'_, '_>) -> Flow {
    let leaves = body.leaves || looped.asks;
    let stays = !body.breaks && !leaves;
    let mut ends = None;
    let known = looped
        .condition
        .map_or(Known::Number(1), |e| evaluate(e, Sort::Method));
    match known {
        Known::Number(0) if !looped.is_do => walk.findings.add(looped.at, MethodKind::NeverRuns),
        Known::Number(0) => add_constant(looped, 0, walk),
        Known::Number(number) => {
            ends = (!body.breaks).then_some(looped.at);
            if stays {
                walk.findings.add(looped.at, MethodKind::NothingEnds);
            } else {
                add_constant(looped, number, walk);
            }
        }
        Known::Nothing if stays && is_unchanging(looped, walk) => {
            walk.findings.add(looped.at, MethodKind::NothingChanges);
        }
        Known::Traps(_) | Known::Nothing => {}
    }
    Flow {
        ends,
        leaves,
        ..Flow::default()
    }
}

/// The place that the first part of a `for` sets to a constant.
pub(crate) fn start_of(initial: Option<&Expr<Target>>) -> Option<(Target, i64)> {
    match initial? {
        Expr::Assign(to, value) => Some((*to, evaluate(value, Sort::Method).number()?)),
        _ => None,
    }
}

/// What the condition of a `for` compares, as if that came first.
pub(crate) fn limit_of(
    condition: Option<&Expr<Target>>,
) -> Option<(Target, Comparison, &Expr<Target>)> {
    match condition? {
        Expr::Compare(comparison, first, second) => match referred(first) {
            Some(target) => Some((target, *comparison, second)),
            None => Some((referred(second)?, turned(*comparison), first)),
        },
        _ => None,
    }
}

// What an operator with a constant adds, where it adds or takes away.
fn step_by(operator: Operator, value: &Expr<Target>) -> Option<i64> {
    let number = evaluate(value, Sort::Method).number()?;
    match operator {
        Operator::Add => Some(number),
        Operator::Subtract => number.checked_neg(),
        _ => None,
    }
}

/// The place that an expression counts, and by how much.
pub(crate) fn step_of(update: Option<&Expr<Target>>) -> Option<(Target, i64)> {
    match update? {
        Expr::Increment(operator, to) => match operator {
            IncrementOperator::PreIncrement | IncrementOperator::PostIncrement => Some((*to, 1)),
            IncrementOperator::PreDecrement | IncrementOperator::PostDecrement => Some((*to, -1)),
        },
        Expr::CompoundAssign(operator, to, value) => Some((*to, step_by(*operator, value)?)),
        Expr::Assign(to, value) => match &**value {
            Expr::Binary(operator, first, second) if referred(first) == Some(*to) => {
                Some((*to, step_by(*operator, second)?))
            }
            _ => None,
        },
        _ => None,
    }
}

/// Whether a step leads away from the limit.
pub(super) fn leads_away(comparison: Comparison, step: i64) -> bool {
    match comparison {
        Comparison::Less | Comparison::LessOrEqual => step < 0,
        Comparison::Greater | Comparison::GreaterOrEqual => 0 < step,
        Comparison::Equal | Comparison::NotEqual => false,
    }
}

// Whether a `for` with this condition and this third part counts to a constant.
fn only_counts(condition: Option<&Expr<Target>>, update: Option<&Expr<Target>>) -> bool {
    let (Some((place, _, limit)), Some((counted, step))) = (limit_of(condition), step_of(update))
    else {
        return false;
    };
    counted == place && step != 0 && evaluate(limit, Sort::Method).number().is_some()
}

/// Whether a loop has no body, or an `else` no statement, and no other warning says so.
pub(super) fn has_no_body(s: &Stmt<Target>) -> bool {
    match s {
        Stmt::While(_, body) | Stmt::IfElse(_, _, body) => matches!(**body, Stmt::Empty),
        Stmt::For {
            condition,
            update,
            body,
            ..
        } => matches!(**body, Stmt::Empty) && !only_counts(condition.as_ref(), update.as_ref()),
        _ => false,
    }
}

/// Whether what was read and set sets a place.
pub(super) fn is_set(uses: &[Use], place: Target) -> bool {
    uses.iter()
        .any(|one| matches!(one, Use::Write(target) if *target == place))
}

/// Checks the head of a `for`: whether it begins behind its limit, whether it counts away from it,
/// and whether it counts to a constant and does no more. `body` is where the body begins in what
/// was read and set.
pub(super) fn check_head(
    at: TokenIndex,
    head: Head<'_>,
    body: usize,
    is_empty: bool,
    walk: &mut Walk<'_, '_>,
) {
    let [initial, condition, update] = head.map(Option::as_ref);
    let Some((place, comparison, limit)) = limit_of(condition) else {
        return;
    };
    if let (Some((started, start)), Known::Number(end)) =
        (start_of(initial), evaluate(limit, Sort::Method))
        && started == place
        && !holds(comparison, start, end)
    {
        return walk.findings.add(at, MethodKind::NeverBegins(start));
    }
    match step_of(update) {
        Some((counted, step)) if counted == place && leads_away(comparison, step) => {
            let is_kept = !is_set(walk.uses.get(body..).unwrap_or_default(), place);
            if is_kept {
                walk.findings.add(at, MethodKind::CountsAway);
            }
        }
        _ if is_empty && only_counts(condition, update) => {
            walk.findings.add(at, MethodKind::EmptyLoop);
        }
        _ => {}
    }
}
