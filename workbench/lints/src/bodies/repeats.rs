//! Loops whose turns all do the same, or begin again what they are to add up.

use super::loops::{limit_of, start_of, step_of};
use super::waits::Doings;
use crate::context::Context;
use crate::expressions::operands::referred;
use crate::expressions::stores::without_parentheses;
use crate::kind::MethodKind;
use crate::source::TokenIndex;
use crate::values::environment::{Storage, storage_of};
use crate::visit::{
    Visitor, for_children, has_child, statements_right_in, visit_parts, visit_statement,
};
use crate::warning::Findings;
use edd_constants::evaluate;
use edd_instructions::Sort;
use edd_syntax::expr::Expr;
use edd_syntax::operators::{Comparison, Operator};
use edd_syntax::reference::Target;
use edd_syntax::stmt::{Part, Stmt};
use std::collections::{BTreeMap, BTreeSet};

/// What the statements of a loop do with places.
#[derive(Default)]
struct Uses {
    reads: BTreeSet<Storage>,
    /// How often each place is set, whatever by.
    sets: BTreeMap<Storage, usize>,
    /// Where something that is no constant is added to a place.
    adds: BTreeMap<Storage, TokenIndex>,
    has_element: bool,
    has_sum: bool,
    loops: usize,
}

struct Gathering<'c, 'd> {
    context: &'c Context<'d>,
    uses: Uses,
}

impl Gathering<'_, '_> {
    fn set(&mut self, target: Target) {
        if let Some(place) = storage_of(target) {
            let count = self.uses.sets.entry(place).or_default();
            *count = count.saturating_add(1);
        }
    }
}

impl<'t> Visitor<'t> for Gathering<'_, '_> {
    fn expression(&mut self, e: &'t Expr<Target>, _: Sort) {
        match e {
            Expr::Reference(target) => self.uses.reads.extend(storage_of(*target)),
            Expr::Indexed(..) => self.uses.has_element = true,
            Expr::Assign(to, value) => {
                self.set(*to);
                let adds = matches!(without_parentheses(value), Expr::Binary(..));
                self.uses.has_sum |= adds;
            }
            Expr::CompoundAssign(operator, to, value) => {
                self.set(*to);
                self.uses.has_sum = true;
                let is_constant = evaluate(value, Sort::Method).number().is_some();
                if *operator == Operator::Add
                    && !is_constant
                    && let Some(place) = storage_of(*to)
                {
                    self.uses.adds.insert(place, self.context.places.sign(e));
                }
            }
            Expr::Increment(_, to) => {
                self.set(*to);
                self.uses.has_sum = true;
            }
            _ => {}
        }
    }

    fn statement(&mut self, s: &'t Stmt<Target>) {
        if matches!(s, Stmt::While(..) | Stmt::Do(..) | Stmt::For { .. }) {
            self.uses.loops = self.uses.loops.saturating_add(1);
        }
    }
}

fn uses_of(s: &Stmt<Target>, context: &Context<'_>) -> Uses {
    let mut gathering = Gathering {
        context,
        uses: Uses::default(),
    };
    visit_statement(s, &mut gathering);
    gathering.uses
}

// The places that a turn sets to 0 before it does anything else with them, and whether a statement does so.
fn restarted(parts: &[Part<Target>]) -> Vec<(Storage, bool)> {
    let mut all = Vec::new();
    for part in parts {
        match part {
            Part::Declare(declarators) => {
                let zeros = declarators.iter().filter(|one| {
                    one.value
                        .as_ref()
                        .is_none_or(|e| matches!(e, Expr::Literal(0)))
                });
                all.extend(zeros.filter_map(|one| Some((storage_of(one.place)?, false))));
            }
            Part::Statement(Stmt::Evaluate(Expr::Assign(to, value)))
                if matches!(**value, Expr::Literal(0)) =>
            {
                all.extend(storage_of(*to).map(|place| (place, true)));
            }
            _ => break,
        }
    }
    all
}

/// The loops of a body.
struct Loops<'c, 'd, 'f> {
    context: &'c Context<'d>,
    findings: &'f mut Findings<'d>,
}

impl Loops<'_, '_, '_> {
    // A local that each turn sets to 0, and to which it adds once.
    fn check_restarted(&mut self, body: &Stmt<Target>) {
        let Stmt::Block(parts) = body else {
            return;
        };
        let restarted = restarted(parts);
        if restarted.is_empty() {
            return;
        }
        let uses = uses_of(body, self.context);
        for (place, is_statement) in restarted {
            let sets = uses.sets.get(&place).copied().unwrap_or(0);
            let is_local = matches!(place, Storage::Local(_));
            let is_once =
                sets == 1_usize.saturating_add(usize::from(is_statement)) && uses.loops == 0;
            if let Some(at) = uses.adds.get(&place).filter(|_| is_local && is_once) {
                self.findings.add(*at, MethodKind::RestartedSum);
            }
        }
    }

    // A `for` whose body reads elements, asks for nothing, adds nothing up and has nothing to do with the counter.
    fn check_repeated(
        &mut self,
        update: Option<&Expr<Target>>,
        s: &Stmt<Target>,
        body: &Stmt<Target>,
    ) {
        let counter = step_of(update).and_then(|(counter, _)| storage_of(counter));
        let Some(counter @ Storage::Local(_)) = counter else {
            return;
        };
        let doings = Doings::of(body);
        if doings.asks() || doings.ends {
            return;
        }
        let uses = uses_of(body, self.context);
        let is_used = uses.reads.contains(&counter) || uses.sets.contains_key(&counter);
        let changes_itself = uses.sets.keys().any(|place| uses.reads.contains(place));
        let is_same = uses.has_element && !is_used && !uses.has_sum && !changes_itself;
        if is_same && uses.loops == 0 {
            let at = self.context.places.statement(s).sign;
            self.findings.add(at, MethodKind::RepeatedTurns);
        }
    }
}

impl Loops<'_, '_, '_> {
    // A store right in the body of a `for` that reads an element by the counter, and that nothing in the loop reads.
    fn check_replaced(&mut self, update: Option<&Expr<Target>>, body: &Stmt<Target>) {
        let Some(counter) = step_of(update).and_then(|(counter, _)| storage_of(counter)) else {
            return;
        };
        let single = std::slice::from_ref(body);
        let statements: Vec<&Stmt<Target>> = match body {
            Stmt::Block(parts) => parts
                .iter()
                .filter_map(|part| match part {
                    Part::Statement(s) => Some(s),
                    _ => None,
                })
                .collect(),
            _ => single.iter().collect(),
        };
        let stores = statements.into_iter().filter_map(|s| match s {
            Stmt::Evaluate(e @ Expr::Assign(to, value)) => Some((e, storage_of(*to)?, value)),
            _ => None,
        });
        let mut uses = None;
        for (e, place, value) in stores {
            let is_element = match without_parentheses(value) {
                Expr::Indexed(_, index) => mentions(index, counter),
                _ => false,
            };
            if !is_element || !matches!(place, Storage::Local(_)) {
                continue;
            }
            let (uses, doings) =
                uses.get_or_insert_with(|| (uses_of(body, self.context), Doings::of(body)));
            if !uses.reads.contains(&place) && !doings.asks() && !doings.ends {
                let at = self.context.places.sign(e);
                self.findings.add(at, MethodKind::ReplacedInTurns);
            }
        }
    }

    // The sums of a block that a `for` adds up, and that are divided behind it.
    fn check_averages(&mut self, parts: &[Part<Target>]) {
        let mut sums: BTreeMap<Storage, i64> = BTreeMap::new();
        for part in parts {
            let Part::Statement(s) = part else {
                continue;
            };
            if let Stmt::For {
                initial,
                condition,
                update,
                body,
            } = s
            {
                let turns = turns_of([initial, condition, update].map(Option::as_ref));
                sums.clear();
                if let Some(turns) = turns.filter(|_| !breaks(body)) {
                    sums.extend(added_in(body).into_iter().map(|place| (place, turns)));
                }
                continue;
            }
            if let Stmt::Evaluate(e) = s
                && !sums.is_empty()
            {
                self.check_division(e, &sums);
            }
        }
    }

    fn check_division(&mut self, e: &Expr<Target>, sums: &BTreeMap<Storage, i64>) {
        let (first, second) = match e {
            Expr::Binary(Operator::Divide, first, second) => {
                (referred(first), evaluate(second, Sort::Method).number())
            }
            Expr::CompoundAssign(Operator::Divide, to, by) => {
                (Some(*to), evaluate(by, Sort::Method).number())
            }
            _ => (None, None),
        };
        let turns = first
            .and_then(storage_of)
            .and_then(|place| sums.get(&place));
        if let (Some(turns), Some(divisor)) = (turns, second)
            && divisor.abs_diff(*turns) == 1
        {
            let at = self.context.places.sign(e);
            self.findings
                .add(at, MethodKind::UnevenAverage(*turns, divisor));
        }
        for_children(e, |inner| self.check_division(inner, sums));
    }
}

fn mentions(e: &Expr<Target>, place: Storage) -> bool {
    matches!(e, Expr::Reference(to) if storage_of(*to) == Some(place))
        || has_child(e, |inner| mentions(inner, place))
}

// How many turns a `for` has that counts by one from a constant to another one.
fn turns_of(head: [Option<&Expr<Target>>; 3]) -> Option<i64> {
    let [initial, condition, update] = head;
    let (started, start) = start_of(initial)?;
    let (compared, comparison, limit) = limit_of(condition)?;
    let (counted, step) = step_of(update)?;
    let limit = evaluate(limit, Sort::Method).number()?;
    let turns = match (comparison, step) {
        (Comparison::Less, 1) => limit.checked_sub(start)?,
        (Comparison::LessOrEqual, 1) => limit.checked_sub(start)?.checked_add(1)?,
        (Comparison::Greater, -1) => start.checked_sub(limit)?,
        (Comparison::GreaterOrEqual, -1) => start.checked_sub(limit)?.checked_add(1)?,
        _ => return None,
    };
    let is_one = started == compared && compared == counted;
    (is_one && 1 < turns).then_some(turns)
}

/// Whether a `break` or a `continue` of a loop may leave out some of its turns.
struct Breaks(bool);

impl<'t> Visitor<'t> for Breaks {
    fn statement(&mut self, s: &'t Stmt<Target>) {
        self.0 |= matches!(s, Stmt::Break { .. } | Stmt::Continue { .. });
    }
}

fn breaks(body: &Stmt<Target>) -> bool {
    let mut breaks = Breaks(false);
    visit_statement(body, &mut breaks);
    breaks.0
}

// The locals to which each turn adds something.
fn added_in(body: &Stmt<Target>) -> Vec<Storage> {
    let added = statements_right_in(body).filter_map(|s| match s {
        Stmt::Evaluate(Expr::CompoundAssign(Operator::Add, to, value)) => {
            let is_constant = evaluate(value, Sort::Method).number().is_some();
            storage_of(*to).filter(|_| !is_constant)
        }
        _ => None,
    });
    added
        .filter(|place| matches!(place, Storage::Local(_)))
        .collect()
}

impl<'t> Visitor<'t> for Loops<'_, '_, '_> {
    fn statement(&mut self, s: &'t Stmt<Target>) {
        match s {
            Stmt::While(_, body) | Stmt::Do(body, _) => self.check_restarted(body),
            Stmt::For { update, body, .. } => {
                self.check_restarted(body);
                self.check_repeated(update.as_ref(), s, body);
                self.check_replaced(update.as_ref(), body);
            }
            Stmt::Block(parts) => self.check_averages(parts),
            _ => {}
        }
    }
}

/// Checks what the turns of the loops of a body repeat.
pub(super) fn check_repeats<'d>(
    parts: &[Part<Target>],
    context: &Context<'d>,
    findings: &mut Findings<'d>,
) {
    let mut loops = Loops { context, findings };
    loops.check_averages(parts);
    visit_parts(parts, &mut loops);
}
