//! What is known of the variables and the locals at a place of a description.

use super::Values;
use crate::context::Context;
use crate::expressions::operands::{referred, turned};
use crate::instrument::variable_of;
use crate::range::Range;
use crate::visit::has_child;
use edd_constants::evaluate;
use edd_instructions::Sort;
use edd_syntax::expr::Expr;
use edd_syntax::numbers::ItemNo;
use edd_syntax::operators::{Comparison, Operator, UnaryOperator};
use edd_syntax::reference::Target;
use std::collections::{BTreeMap, BTreeSet};

/// A local or a variable.
#[derive(Clone, Copy, Debug, PartialEq, Eq, PartialOrd, Ord)]
pub(crate) enum Storage {
    Local(u8),
    Variable(u16),
}

/// What a reference refers to, where it holds a value.
pub(crate) fn storage_of(target: Target) -> Option<Storage> {
    match target {
        Target::Local(slot) => Some(Storage::Local(slot)),
        _ => variable_of(target).map(Storage::Variable),
    }
}

/// Of how many places something is known at most, so that a copy takes no long time.
const MOST_KNOWN: usize = 64;

/// What is known of the variables and the locals, beside their types.
#[derive(Clone)]
pub(crate) struct Environment<'c, 'd> {
    context: &'c Context<'d>,
    pub(crate) sort: Sort,
    known: BTreeMap<Storage, Values>,
    /// The places of which something is known since a branch before was not taken.
    passed: BTreeSet<Storage>,
}

impl<'c, 'd> Environment<'c, 'd> {
    /// Nothing is known but types.
    pub(crate) fn new(sort: Sort, context: &'c Context<'d>) -> Environment<'c, 'd> {
        Environment {
            context,
            sort,
            known: BTreeMap::new(),
            passed: BTreeSet::new(),
        }
    }

    // What the type of a place lets it be.
    fn typed(&self, storage: Storage) -> Values {
        let range = match storage {
            Storage::Local(_) => None,
            Storage::Variable(variable) => self.context.instrument.range(variable),
        };
        let any = Values::any(self.sort);
        range
            .filter(|range| any.holds(range.low) && any.holds(range.high))
            .map_or(any, Values::within)
    }

    /// What a place may hold.
    pub(crate) fn get(&self, storage: Storage) -> Values {
        let known = self.known.get(&storage).copied();
        known.unwrap_or_else(|| self.typed(storage))
    }

    /// What an element of an array may hold.
    pub(crate) fn element(&self, array: Target, index: &Expr<Target>) -> Values {
        let element = self.context.instrument.element_at(array, index, self.sort);
        match element.and_then(storage_of) {
            Some(storage) => self.get(storage),
            None => self.any_element(array),
        }
    }

    // What any of the elements of an array may hold.
    fn any_element(&self, array: Target) -> Values {
        let any = Values::any(self.sort);
        let Target::Item(ItemNo::Array(array)) = array else {
            return any;
        };
        self.context
            .instrument
            .element_range(array.0)
            .filter(|range| any.holds(range.low) && any.holds(range.high))
            .map_or(any, Values::within)
    }

    /// Whether more is known of a place than its type says.
    pub(crate) fn knows(&self, storage: Storage) -> bool {
        self.known.contains_key(&storage)
    }

    /// Sets what a place holds. A variable keeps of it what its type holds.
    pub(crate) fn set(&mut self, storage: Storage, values: Values) {
        self.passed.remove(&storage);
        let Range { low, high } = self.typed(storage).range;
        let is_kept = low <= values.range.low && values.range.high <= high;
        if is_kept {
            self.know(storage, values);
        } else {
            self.known.remove(&storage);
        }
    }

    fn know(&mut self, storage: Storage, values: Values) {
        let has_room = self.known.len() < MOST_KNOWN || self.known.contains_key(&storage);
        if has_room {
            self.known.insert(storage, values);
        }
    }

    /// Forgets what is known of a place.
    pub(crate) fn forget(&mut self, storage: Storage) {
        self.known.remove(&storage);
        self.passed.remove(&storage);
    }

    /// What holds where a comparison fails, since the branch under it was not taken: code that tests the
    /// opposite again is careful.
    pub(crate) fn passed(self, comparison: &Expr<Target>) -> Option<Environment<'c, 'd>> {
        let Expr::Compare(_, first, second) = comparison else {
            return Some(self);
        };
        let mut passed = self.refined(comparison, false)?;
        let compared = [first, second].into_iter().filter_map(|e| referred(e));
        passed.passed.extend(compared.filter_map(storage_of));
        Some(passed)
    }

    /// The same, where a test of anything that is known is careful.
    pub(crate) fn all_passed(mut self) -> Environment<'c, 'd> {
        self.passed.extend(self.known.keys());
        self
    }

    /// Whether an expression reads a place of which something is known so.
    pub(crate) fn reads_passed(&self, e: &Expr<Target>) -> bool {
        let is_passed = match e {
            Expr::Reference(target) => {
                storage_of(*target).is_some_and(|storage| self.passed.contains(&storage))
            }
            _ => false,
        };
        is_passed || has_child(e, |inner| self.reads_passed(inner))
    }

    /// Forgets the variables: a host that is asked may change each of them.
    pub(crate) fn forget_variables(&mut self) {
        self.known
            .retain(|storage, _| matches!(storage, Storage::Local(_)));
        self.passed
            .retain(|storage| matches!(storage, Storage::Local(_)));
    }

    /// What holds where one of two environments does.
    pub(crate) fn join(mut self, other: &Environment<'_, '_>) -> Environment<'c, 'd> {
        self.passed.extend(&other.passed);
        self.known = self
            .known
            .into_iter()
            .filter_map(|(storage, values)| {
                let others = other.known.get(&storage)?;
                Some((storage, values.join(*others)))
            })
            .collect();
        self
    }

    // Keeps of a place what is left; nothing where the place can't be so.
    fn narrow(mut self, storage: Storage, left: Option<Values>) -> Option<Environment<'c, 'd>> {
        self.know(storage, left?);
        Some(self)
    }

    /// What holds where a condition is true, or false; nothing where it can't be.
    pub(crate) fn refined(self, e: &Expr<Target>, truth: bool) -> Option<Environment<'c, 'd>> {
        match e {
            Expr::Parentheses(inner) => self.refined(inner, truth),
            Expr::Unary(UnaryOperator::Not, inner) => self.refined(inner, !truth),
            Expr::LogicalAnd(first, second) if truth => {
                self.refined(first, true)?.refined(second, true)
            }
            Expr::LogicalOr(first, second) if !truth => {
                self.refined(first, false)?.refined(second, false)
            }
            Expr::Compare(comparison, first, second) => {
                self.refined_by(*comparison, first, second, truth)
            }
            Expr::Binary(Operator::And, first, second) => self.masked(first, second, truth),
            Expr::Reference(target) => {
                let comparison = if truth {
                    Comparison::NotEqual
                } else {
                    Comparison::Equal
                };
                self.bounded(*target, comparison, 0)
            }
            _ => Some(self),
        }
    }

    fn bounded(
        self,
        target: Target,
        comparison: Comparison,
        number: i64,
    ) -> Option<Environment<'c, 'd>> {
        match storage_of(target) {
            Some(storage) => {
                let left = self.get(storage).compared(comparison, number);
                self.narrow(storage, left)
            }
            None => Some(self),
        }
    }

    /// What holds where what is selected on compares so with a label; nothing where it can't.
    pub(crate) fn selected(
        self,
        on: &Expr<Target>,
        comparison: Comparison,
        label: i64,
    ) -> Option<Environment<'c, 'd>> {
        match referred(on) {
            Some(target) => self.bounded(target, comparison, label),
            None => Some(self),
        }
    }

    fn refined_by(
        self,
        comparison: Comparison,
        first: &Expr<Target>,
        second: &Expr<Target>,
        truth: bool,
    ) -> Option<Environment<'c, 'd>> {
        let comparison = if truth {
            comparison
        } else {
            negated(comparison)
        };
        let (target, comparison, other) = match (referred(first), referred(second)) {
            (Some(target), _) => (target, comparison, second),
            (None, Some(target)) => (target, turned(comparison), first),
            (None, None) => return Some(self),
        };
        match evaluate(other, self.sort).number() {
            Some(number) => self.bounded(target, comparison, number),
            None => Some(self),
        }
    }

    fn masked(
        self,
        first: &Expr<Target>,
        second: &Expr<Target>,
        truth: bool,
    ) -> Option<Environment<'c, 'd>> {
        let storage = referred(first).and_then(storage_of);
        let mask = evaluate(second, self.sort).number();
        match storage.zip(mask) {
            Some((storage, mask)) => {
                let left = self.get(storage).masked(mask, truth);
                self.narrow(storage, left)
            }
            None => Some(self),
        }
    }
}

/// The comparison that holds where another one does not.
fn negated(comparison: Comparison) -> Comparison {
    match comparison {
        Comparison::Equal => Comparison::NotEqual,
        Comparison::NotEqual => Comparison::Equal,
        Comparison::Less => Comparison::GreaterOrEqual,
        Comparison::LessOrEqual => Comparison::Greater,
        Comparison::Greater => Comparison::LessOrEqual,
        Comparison::GreaterOrEqual => Comparison::Less,
    }
}
