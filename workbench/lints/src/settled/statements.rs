//! Ways through the body of a method.

use super::counters::{
    ForLoop, counter_of, counter_of_while, ends_after_first_turn, reached_behind,
};
use super::{Ways, depends};
use crate::bodies::flow::is_abort;
use crate::context::Context;
use crate::expressions::operands::referred;
use crate::expressions::stores::without_parentheses;
use crate::kind::{ConditionKind, MethodKind};
use crate::range::Range;
use crate::source::{TokenIndex, index};
use crate::values::Values;
use crate::values::environment::{Environment, Storage, storage_of};
use crate::values::evaluation::Nobody;
use crate::visit::{Visitor, for_children, visit_parts, visit_statement};
use crate::warning::Findings;
use edd_arithmetic::wrapped;
use edd_constants::evaluate;
use edd_instructions::Sort;
use edd_syntax::expr::Expr;
use edd_syntax::operators::Comparison;
use edd_syntax::reference::Target;
use edd_syntax::stmt::{Declarator, Part, Stmt};
use std::collections::BTreeSet;

/// Forgets what the nodes that it visits may change.
struct Forgetting<'k, 'c, 'd> {
    known: &'k mut Environment<'c, 'd>,
}

impl<'t> Visitor<'t> for Forgetting<'_, '_, '_> {
    fn expression(&mut self, e: &'t Expr<Target>, _: Sort) {
        self.known.forget_change(e);
    }
}

/// Notes the places that conditions read.
struct Testing<'k>(&'k mut BTreeSet<Storage>);

impl Testing<'_> {
    fn add(&mut self, e: &Expr<Target>) {
        if let Expr::Reference(target) = e {
            self.0.extend(storage_of(*target));
        }
        for_children(e, |inner| self.add(inner));
    }
}

impl<'t> Visitor<'t> for Testing<'_> {
    fn expression(&mut self, e: &'t Expr<Target>, _: Sort) {
        if let Expr::Compare(..) = e {
            self.add(e);
        }
    }

    fn statement(&mut self, s: &'t Stmt<Target>) {
        if let Stmt::If(test, _)
        | Stmt::IfElse(test, ..)
        | Stmt::While(test, _)
        | Stmt::Do(_, test)
        | Stmt::Switch(test, _) = s
        {
            self.add(test);
        }
    }
}

type Way<'c, 'd> = Option<Environment<'c, 'd>>;

fn joined<'c, 'd>(one: Way<'c, 'd>, other: Way<'c, 'd>) -> Way<'c, 'd> {
    match (one, other) {
        (Some(one), Some(other)) => Some(one.join(&other)),
        (one, other) => one.or(other),
    }
}

impl<'c, 'd> Ways<'c, 'd, '_> {
    fn parts(&mut self, parts: &[Part<Target>], known: Environment<'c, 'd>) -> Way<'c, 'd> {
        let mut known = known;
        for part in parts {
            match part {
                Part::Declare(declarators) => self.declare(declarators, &mut known),
                Part::Statement(s) => known = self.statement(s, known)?,
                Part::CaseLabel { .. } | Part::DefaultLabel { .. } => {}
            }
        }
        Some(known)
    }

    fn declare(&mut self, declarators: &[Declarator<Target>], known: &mut Environment<'c, 'd>) {
        for declarator in declarators {
            known.forget_target(declarator.place);
            if let Some(e) = &declarator.value {
                let values = self.follow(e, known);
                known.store(declarator.place, values);
            } else if 0 < self.loops && !self.is_told(declarator) {
                // It is 0 in each turn, also where the one before has set it.
                known.store(declarator.place, Values::exactly(0));
            }
        }
    }

    // Whether a local has a warning where it is declared.
    fn is_told(&self, declarator: &Declarator<Target>) -> bool {
        let at = self.context.places.declarator(declarator);
        self.findings.is_reported(self.context.source.span(at))
    }

    /// Follows a statement, and returns what is known behind it; nothing where it does not go on.
    fn statement(&mut self, s: &Stmt<Target>, known: Environment<'c, 'd>) -> Way<'c, 'd> {
        let mut known = known;
        let at = self.context.places.statement(s).sign;
        match s {
            Stmt::Empty => Some(known),
            Stmt::Evaluate(e) => {
                self.follow(e, &mut known);
                (!is_abort(e)).then_some(known)
            }
            Stmt::Block(parts) => self.parts(parts, known),
            Stmt::If(condition, first) => {
                self.test_at(at, condition, &mut known);
                self.is_chained = false;
                let taken = known.clone().refined(condition, true);
                self.check_set_as_tested(condition, first, taken.as_ref());
                let taken = taken.and_then(|inner| self.statement(first, inner));
                joined(taken, known.passed(without_parentheses(condition)))
            }
            Stmt::IfElse(condition, first, otherwise) => {
                self.branches(at, condition, [first, otherwise], known)
            }
            Stmt::While(condition, body) => {
                self.check_begin(at, condition, &known);
                let counter = counter_of_while(condition, body, &known);
                self.check_search(s, body, &known);
                self.loops = self.loops.saturating_add(1);
                self.forget_in(s, &mut known);
                self.test_at(at, condition, &mut known);
                if let Some(mut inner) = known.clone().refined(condition, true) {
                    self.open_counter(counter, &mut inner);
                    self.statement(body, inner);
                    self.close_counter(counter);
                }
                self.loops = self.loops.saturating_sub(1);
                Some(known)
            }
            Stmt::Do(body, condition) => {
                if ends_after_first_turn(body, condition, &known) {
                    let at = self.context.places.sign(condition);
                    self.findings.add(at, ConditionKind::SettledHere(false));
                }
                self.check_search(s, body, &known);
                self.loops = self.loops.saturating_add(1);
                self.forget_in(s, &mut known);
                if let Some(mut behind) = self.statement(body, known.clone()) {
                    self.test_at(at, condition, &mut behind);
                }
                self.loops = self.loops.saturating_sub(1);
                Some(known)
            }
            Stmt::For {
                initial,
                condition,
                update,
                body,
            } => {
                let looped = ForLoop {
                    initial: initial.as_ref(),
                    condition: condition.as_ref(),
                    update: update.as_ref(),
                    body,
                };
                Some(self.for_loop(s, &looped, known))
            }
            Stmt::Switch(on, parts) => Some(self.switch(on, parts, known)),
            Stmt::Break { .. } | Stmt::Continue { .. } | Stmt::Return => None,
        }
    }

    // A loop whose condition does not hold where it begins.
    fn check_begin(
        &mut self,
        at: TokenIndex,
        condition: &Expr<Target>,
        known: &Environment<'c, 'd>,
    ) {
        let is_told = self.findings.is_reported(self.context.source.span(at))
            || self.is_reported(condition)
            || !depends(condition, Sort::Method);
        let truth = known.clone().evaluate(condition, &mut Nobody).truth();
        if truth == Some(false) && !is_told {
            self.findings.add(at, MethodKind::NeverRuns);
        }
    }

    // Notes what the counter of a loop comes to in its body.
    fn open_counter(&mut self, counter: Option<(Storage, Range)>, inner: &mut Environment<'c, 'd>) {
        if let Some((storage, range)) = counter {
            inner.set_counter(storage, range);
            self.counters.insert(storage, inner.get(storage));
        }
    }

    fn close_counter(&mut self, counter: Option<(Storage, Range)>) {
        if let Some((storage, _)) = counter {
            self.counters.remove(&storage);
        }
    }

    // A branch that begins by setting a place to what its condition has compared it with.
    fn check_set_as_tested(
        &mut self,
        condition: &Expr<Target>,
        first: &Stmt<Target>,
        taken: Option<&Environment<'c, 'd>>,
    ) {
        let Expr::Compare(Comparison::Equal, place, _) = without_parentheses(condition) else {
            return;
        };
        let s = match first {
            Stmt::Block(parts) => match parts.first() {
                Some(Part::Statement(s)) => s,
                _ => return,
            },
            _ => first,
        };
        let Stmt::Evaluate(e @ Expr::Assign(to, value)) = s else {
            return;
        };
        let known = taken
            .zip(storage_of(*to).filter(|_| referred(place) == Some(*to)))
            .and_then(|(taken, storage)| taken.get(storage).number());
        if known.is_some() && known == evaluate(value, Sort::Method).number() {
            let at = self.context.places.sign(e);
            self.findings.add(at, MethodKind::SetAsTested);
        }
    }

    pub(super) fn forget_in(&self, s: &Stmt<Target>, known: &mut Environment<'c, 'd>) {
        visit_statement(s, &mut Forgetting { known });
    }

    fn branches(
        &mut self,
        at: TokenIndex,
        condition: &Expr<Target>,
        branches: [&Stmt<Target>; 2],
        known: Environment<'c, 'd>,
    ) -> Way<'c, 'd> {
        let mut known = known;
        let is_chained = self.is_chained;
        let is_passed = known.reads_passed(condition);
        self.test_at(at, condition, &mut known);
        self.is_chained = false;
        let [first, otherwise] = branches;
        let taken = known.clone().refined(condition, true);
        self.check_set_as_tested(condition, first, taken.as_ref());
        let taken = taken.and_then(|inner| self.statement(first, inner));
        self.is_chained = matches!(otherwise, Stmt::If(..) | Stmt::IfElse(..));
        let other = known.refined(condition, false);
        if (is_chained || is_passed) && other.is_none() {
            self.check_last_else(condition, Sort::Method);
        }
        let other = other.and_then(|inner| self.statement(otherwise, inner));
        self.is_chained = false;
        joined(taken, other)
    }

    fn for_loop(
        &mut self,
        s: &Stmt<Target>,
        looped: &ForLoop<'_>,
        known: Environment<'c, 'd>,
    ) -> Environment<'c, 'd> {
        let mut known = known;
        if let Some(e) = looped.initial {
            self.follow(e, &mut known);
        }
        if let Some(condition) = looped.condition {
            let at = self.context.places.statement(s).sign;
            self.check_begin(at, condition, &known);
        }
        self.check_search(s, looped.body, &known);
        self.forget_in(s, &mut known);
        let mut inner = Some(known.clone());
        if let Some(condition) = looped.condition {
            let at = self.context.places.statement(s).sign;
            self.test_at(at, condition, &mut known);
            inner = known.clone().refined(condition, true);
        }
        let Some(mut inner) = inner else {
            return known;
        };
        let counter = counter_of(looped);
        self.open_counter(counter, &mut inner);
        self.loops = self.loops.saturating_add(1);
        if let Some(mut behind) = self.statement(looped.body, inner)
            && let Some(e) = looped.update
        {
            self.follow(e, &mut behind);
        }
        self.loops = self.loops.saturating_sub(1);
        self.close_counter(counter);
        let behind = counter.and_then(|(storage, range)| {
            let reached = reached_behind(looped, range)?;
            Some((storage, Values::within(reached)))
        });
        // A request may have set a variable.
        if let Some((storage @ Storage::Local(_), reached)) = behind {
            known.set(storage, reached);
        }
        known
    }

    fn switch(
        &mut self,
        on: &Expr<Target>,
        parts: &[Part<Target>],
        known: Environment<'c, 'd>,
    ) -> Environment<'c, 'd> {
        let mut known = known;
        let is_told = self.is_reported(on) || !depends(on, Sort::Method);
        let values = self.follow(on, &mut known);
        let is_told = is_told || known.reads_passed(on);
        if let Some(number) = values.number().filter(|_| !is_told) {
            let at = self.context.places.expression(on).extent.start;
            self.findings
                .add(at, ConditionKind::SettledSelection(number));
        }
        let is_computed = self.has_computed_labels(on, values, Sort::Method);
        let mut way: Way<'c, 'd> = None;
        for part in parts {
            match part {
                Part::CaseLabel { at, label } => {
                    if is_computed && !values.holds(wrapped(Sort::Method, *label)) {
                        self.findings
                            .add(index(*at), ConditionKind::ImpossibleCase(*label));
                    }
                    let entered = known.clone().selected(on, Comparison::Equal, *label);
                    way = joined(way, entered);
                }
                Part::DefaultLabel { .. } => way = joined(way, Some(known.clone())),
                Part::Declare(declarators) => {
                    if let Some(known) = &mut way {
                        self.declare(declarators, known);
                    }
                }
                Part::Statement(s) => way = way.and_then(|known| self.statement(s, known)),
            }
        }
        visit_parts(parts, &mut Forgetting { known: &mut known });
        known
    }
}

/// Follows the ways through a body.
pub(crate) fn check_body<'d>(
    parts: &[Part<Target>],
    context: &Context<'d>,
    findings: &mut Findings<'d>,
) {
    let mut ways = Ways::new(context, findings);
    visit_parts(parts, &mut Testing(&mut ways.tested));
    ways.parts(parts, Environment::new(Sort::Method, context));
}
