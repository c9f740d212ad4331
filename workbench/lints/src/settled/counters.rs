//! The counters of loops.

use crate::bodies::loops::{limit_of, start_of, step_of};
use crate::range::Range;
use crate::values::environment::{Environment, Storage, storage_of};
use crate::visit::{Visitor, has_child, visit_parts, visit_statement};
use edd_arithmetic::holds;
use edd_constants::evaluate;
use edd_instructions::Sort;
use edd_syntax::expr::Expr;
use edd_syntax::operators::Comparison;
use edd_syntax::reference::Target;
use edd_syntax::stmt::{Part, Stmt};

/// The parts of a `for`.
pub(super) struct ForLoop<'t> {
    pub(super) initial: Option<&'t Expr<Target>>,
    pub(super) condition: Option<&'t Expr<Target>>,
    pub(super) update: Option<&'t Expr<Target>>,
    pub(super) body: &'t Stmt<Target>,
}

/// What a statement does with a place.
struct Uses {
    target: Target,
    sets: bool,
    /// Whether an `if` in it tests the place.
    tests: bool,
    /// Whether a `continue` may pass over the rest of it.
    continues: bool,
    breaks: bool,
}

impl Uses {
    fn of(target: Target) -> Uses {
        Uses {
            target,
            sets: false,
            tests: false,
            continues: false,
            breaks: false,
        }
    }
}

fn mentions(e: &Expr<Target>, target: Target) -> bool {
    matches!(e, Expr::Reference(to) if *to == target)
        || has_child(e, |inner| mentions(inner, target))
}

impl<'t> Visitor<'t> for Uses {
    fn expression(&mut self, e: &'t Expr<Target>, _: Sort) {
        match e {
            Expr::Assign(to, _) | Expr::CompoundAssign(_, to, _) | Expr::Increment(_, to) => {
                self.sets |= *to == self.target;
            }
            Expr::Call { arguments, .. } => {
                let written = crate::expressions::calls::target_of_argument(arguments, 0);
                self.sets |= written == Some(self.target);
            }
            Expr::Conditional(test, ..) | Expr::LogicalAnd(test, _) | Expr::LogicalOr(test, _) => {
                self.tests |= mentions(test, self.target)
            }
            _ => {}
        }
    }

    fn statement(&mut self, s: &'t Stmt<Target>) {
        self.continues |= matches!(s, Stmt::Continue { .. });
        self.breaks |= matches!(s, Stmt::Break { .. });
        if let Stmt::If(test, _)
        | Stmt::IfElse(test, ..)
        | Stmt::While(test, _)
        | Stmt::Switch(test, _) = s
        {
            self.tests |= is_plain_test(test, self.target);
        }
    }
}

// Whether a condition tests a place itself, and not only an element by it.
fn is_plain_test(e: &Expr<Target>, target: Target) -> bool {
    match e {
        Expr::Indexed(..) => false,
        Expr::Reference(to) => *to == target,
        _ => has_child(e, |inner| is_plain_test(inner, target)),
    }
}

/// The counter of a loop that comes to each number of a range, and is set and tested in its head
/// alone.
pub(super) fn counter_of(looped: &ForLoop<'_>) -> Option<(Storage, Range)> {
    let (target, start) = start_of(looped.initial)?;
    let (compared, comparison, limit) = limit_of(looped.condition)?;
    let (counted, step) = step_of(looped.update)?;
    let limit = evaluate(limit, Sort::Method).number()?;
    let is_one = target == compared && target == counted && holds(comparison, start, limit);
    let range = counted_range(start, comparison, limit, step)?;
    let mut uses = Uses::of(target);
    visit_statement(looped.body, &mut uses);
    let is_plain = is_one && !uses.sets && !uses.tests;
    Some((storage_of(target)?, range)).filter(|_| is_plain)
}

/// What a counter may be behind its loop: it has counted once more, or a `break` has left the loop.
pub(super) fn reached_behind(looped: &ForLoop<'_>, range: Range) -> Option<Range> {
    let (target, step) = step_of(looped.update)?;
    let mut uses = Uses::of(target);
    visit_statement(looped.body, &mut uses);
    let last = if step < 0 { range.low } else { range.high };
    let reached = last.checked_add(step)?;
    Some(if uses.breaks {
        Range {
            low: range.low.min(reached),
            high: range.high.max(reached),
        }
    } else {
        Range {
            low: reached,
            high: reached,
        }
    })
}

// What the last statement of a body counts, by how much, and what is before it.
fn counted_last(body: &Stmt<Target>) -> Option<(Target, i64, &[Part<Target>])> {
    let Stmt::Block(parts) = body else {
        return None;
    };
    let (Part::Statement(Stmt::Evaluate(last)), rest) = parts.split_last()? else {
        return None;
    };
    let (counted, step) = step_of(Some(last))?;
    Some((counted, step, rest))
}

/// The same of a `while` whose counter is known where it begins, and is counted by the last statement
/// of its body alone.
pub(super) fn counter_of_while(
    condition: &Expr<Target>,
    body: &Stmt<Target>,
    known: &Environment<'_, '_>,
) -> Option<(Storage, Range)> {
    let (target, comparison, limit) = limit_of(Some(condition))?;
    let (counted, step, rest) = counted_last(body)?;
    let limit = evaluate(limit, Sort::Method).number()?;
    let storage = storage_of(target)?;
    let start = known.get(storage).number()?;
    let range = counted_range(start, comparison, limit, step)?;
    let mut uses = Uses::of(target);
    visit_parts(rest, &mut uses);
    let is_plain = !uses.sets && !uses.tests && !uses.continues;
    let is_one = target == counted && holds(comparison, start, limit);
    (is_plain && is_one).then_some((storage, range))
}

/// Whether the condition of a `do` does not hold after its first turn, which counts a place that is known
/// where it begins by its last statement alone.
pub(super) fn ends_after_first_turn(
    body: &Stmt<Target>,
    condition: &Expr<Target>,
    known: &Environment<'_, '_>,
) -> bool {
    let ends = || {
        let (target, comparison, limit) = limit_of(Some(condition))?;
        let (counted, step, rest) = counted_last(body)?;
        let limit = evaluate(limit, Sort::Method).number()?;
        let start = known.get(storage_of(target)?).number()?;
        let mut uses = Uses::of(target);
        visit_parts(rest, &mut uses);
        let reached = start.checked_add(step)?;
        let is_plain = target == counted && !uses.sets && !uses.continues;
        Some(is_plain && !holds(comparison, reached, limit))
    };
    ends() == Some(true)
}

fn counted_range(start: i64, comparison: Comparison, limit: i64, step: i64) -> Option<Range> {
    let last = match (comparison, step) {
        (Comparison::LessOrEqual, 1) | (Comparison::GreaterOrEqual, -1) => limit,
        (Comparison::Less, 1) => limit.checked_sub(1)?,
        (Comparison::Greater, -1) => limit.checked_add(1)?,
        (Comparison::NotEqual, 1) if start < limit => limit.checked_sub(1)?,
        (Comparison::NotEqual, -1) if limit < start => limit.checked_add(1)?,
        _ => return None,
    };
    Some(Range {
        low: start.min(last),
        high: start.max(last),
    })
}
