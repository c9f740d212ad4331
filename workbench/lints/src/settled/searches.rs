//! Searches for the least or the greatest that begin where nothing is less, or greater.

use super::Ways;
use crate::expressions::operands::referred;
use crate::expressions::stores::without_parentheses;
use crate::kind::ConditionKind;
use crate::values::environment::{Environment, Storage, storage_of};
use crate::values::evaluation::Nobody;
use crate::visit::{Visitor, statements_right_in, visit_statement};
use edd_constants::evaluate;
use edd_instructions::Sort;
use edd_syntax::expr::Expr;
use edd_syntax::reference::Target;
use edd_syntax::stmt::Stmt;
use std::collections::BTreeMap;

/// How often a statement sets each place.
#[derive(Default)]
struct Sets {
    counts: BTreeMap<Storage, usize>,
}

impl Sets {
    fn of(s: &Stmt<Target>) -> Sets {
        let mut sets = Sets::default();
        visit_statement(s, &mut sets);
        sets
    }

    fn count(&self, place: Storage) -> usize {
        self.counts.get(&place).copied().unwrap_or(0)
    }
}

impl<'t> Visitor<'t> for Sets {
    fn expression(&mut self, e: &'t Expr<Target>, _: Sort) {
        if let Expr::Assign(to, _) | Expr::CompoundAssign(_, to, _) | Expr::Increment(_, to) = e
            && let Some(place) = storage_of(*to)
        {
            let count = self.counts.entry(place).or_default();
            *count = count.saturating_add(1);
        }
    }
}

// The local that a comparison compares with what is no constant, where a branch under it sets it.
fn searched(condition: &Expr<Target>, sets: &Sets) -> Option<Storage> {
    let Expr::Compare(_, first, second) = without_parentheses(condition) else {
        return None;
    };
    let is_found = |one: &Expr<Target>, other: &Expr<Target>| {
        let Some(place @ Storage::Local(_)) = referred(one).and_then(storage_of) else {
            return None;
        };
        let is_constant = evaluate(other, Sort::Method).number().is_some();
        (!is_constant && 0 < sets.count(place)).then_some(place)
    };
    is_found(first, second).or_else(|| is_found(second, first))
}

impl<'c, 'd> Ways<'c, 'd, '_> {
    /// Checks the branches right in the body of a loop that set the local which their condition compares:
    /// whether the first turn can come to them, where nothing else in the loop sets it.
    pub(super) fn check_search(
        &mut self,
        looped: &Stmt<Target>,
        body: &Stmt<Target>,
        known: &Environment<'c, 'd>,
    ) {
        // What the loop sets is counted once, where it has such a branch.
        let mut counted = None;
        for s in statements_right_in(body) {
            let Stmt::If(condition, branch) = s else {
                continue;
            };
            let sets = Sets::of(branch);
            let Some(place) = searched(condition, &sets) else {
                continue;
            };
            let (all, forgotten) = counted.get_or_insert_with(|| {
                let mut forgotten = known.clone();
                self.forget_in(looped, &mut forgotten);
                (Sets::of(looped), forgotten)
            });
            let start = known.get(place);
            let is_searched = start.number().is_some() && known.knows(place);
            if is_searched && all.count(place) == sets.count(place) {
                let mut there = forgotten.clone();
                there.set(place, start);
                self.check_first_turn(condition, there);
            }
        }
    }

    fn check_first_turn(&mut self, condition: &Expr<Target>, known: Environment<'c, 'd>) {
        let mut known = known;
        let fails = known.evaluate(condition, &mut Nobody).truth() == Some(false);
        let at = self.context.places.sign(without_parentheses(condition));
        if fails && !self.findings.is_reported(self.context.source.span(at)) {
            self.findings.add(at, ConditionKind::SettledHere(false));
        }
    }
}
