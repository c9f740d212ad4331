//! Conditions that what is known at their place settles: by the conditions around them, by what was
//! stored, and by the bits and the ranges of their operands.

mod attributes;
mod counters;
mod indexes;
mod searches;
mod statements;
mod stores;

pub(crate) use attributes::{check_attributes, variables_read, where_valid};
pub(crate) use statements::check_body;

use crate::context::Context;
use crate::expressions::operands::referred;
use crate::expressions::stores::without_parentheses;
use crate::instrument::variable_of;
use crate::kind::ConditionKind;
use crate::source::TokenIndex;
use crate::values::Values;
use crate::values::environment::{Environment, Storage, storage_of};
use crate::values::evaluation::{Nobody, Observer};
use crate::visit::has_child;
use crate::warning::Findings;
use edd_constants::{Known, evaluate};
use edd_instructions::Sort;
use edd_syntax::expr::Expr;
use edd_syntax::operators::UnaryOperator;
use edd_syntax::reference::Target;
use std::collections::{BTreeMap, BTreeSet};

/// A walk over the ways through an item, with what is known on each of them.
struct Ways<'c, 'd, 'f> {
    context: &'c Context<'d>,
    findings: &'f mut Findings<'d>,
    /// What the counters of the loops around come to, where they come to each number of a range.
    counters: BTreeMap<Storage, Values>,
    /// Whether the condition comes after `else`: that it holds there may be written for clarity.
    is_chained: bool,
    /// The places that some condition of the item tests.
    tested: BTreeSet<Storage>,
    /// How many loops are open.
    loops: usize,
}

fn depends(e: &Expr<Target>, sort: Sort) -> bool {
    evaluate(e, sort) == Known::Nothing
}

// Whether a place is compared with a constant.
fn is_with_constant(first: &Expr<Target>, second: &Expr<Target>, sort: Sort) -> bool {
    let is_pair = |one: &Expr<Target>, other: &Expr<Target>| {
        referred(one).is_some() && evaluate(other, sort).number().is_some()
    };
    is_pair(first, second) || is_pair(second, first)
}

impl Observer for Ways<'_, '_, '_> {
    fn observe(&mut self, e: &Expr<Target>, values: Values, known: &Environment<'_, '_>) {
        match e {
            Expr::Compare(_, first, second) if depends(e, known.sort) => {
                // What the type of a place says of a constant is reported elsewhere.
                let is_of_type = is_with_constant(first, second, known.sort)
                    && self.by_types(e, known.sort).number().is_some();
                let is_careful = self.is_chained || known.reads_passed(e);
                let counts = |number: &i64| !is_of_type && (*number == 0 || !is_careful);
                if let Some(number) = values.number().filter(counts) {
                    let at = self.context.places.sign(e);
                    self.findings
                        .add(at, ConditionKind::SettledHere(number != 0));
                }
            }
            Expr::Indexed(array, index) => indexes::check_index(self, e, *array, index, known),
            Expr::Assign(to, _) => stores::check_store(self, e, *to, values, known),
            Expr::Binary(operator, _, second) | Expr::CompoundAssign(operator, _, second) => {
                indexes::check_divisor(self, e, *operator, second, known);
            }
            Expr::LogicalAnd(first, second) | Expr::LogicalOr(first, second) => {
                for operand in [first, second] {
                    self.check_operand(operand, true, known);
                }
            }
            _ => {}
        }
    }
}

impl<'c, 'd, 'f> Ways<'c, 'd, 'f> {
    fn new(context: &'c Context<'d>, findings: &'f mut Findings<'d>) -> Ways<'c, 'd, 'f> {
        Ways {
            context,
            findings,
            counters: BTreeMap::new(),
            is_chained: false,
            tested: BTreeSet::new(),
            loops: 0,
        }
    }
}

impl<'c, 'd> Ways<'c, 'd, '_> {
    // What an expression gives by the types of what it reads.
    fn by_types(&self, e: &Expr<Target>, sort: Sort) -> Values {
        Environment::new(sort, self.context).evaluate(e, &mut Nobody)
    }

    /// Follows the condition of a loop or of a chain. Where that has a warning, none is told of its
    /// condition.
    fn test_at(&mut self, at: TokenIndex, e: &Expr<Target>, known: &mut Environment<'c, 'd>) {
        if self.findings.is_reported(self.context.source.span(at)) {
            known.evaluate(e, &mut Nobody);
        } else {
            self.test(e, known);
        }
    }

    // Whether an operator of an expression has a warning: then no other one is told of it.
    fn is_reported(&self, e: &Expr<Target>) -> bool {
        let span = self.context.source.span(self.context.places.sign(e));
        self.findings.is_reported(span) || has_child(e, |inner| self.is_reported(inner))
    }

    /// Follows an expression. Of one that has a warning nothing is known: it may be another one that is meant.
    fn follow(&mut self, e: &Expr<Target>, known: &mut Environment<'c, 'd>) -> Values {
        if self.is_reported(e) {
            known.forget_changes(e);
            return Values::any(known.sort);
        }
        known.evaluate(e, self)
    }

    /// Follows a condition, whose truth alone counts.
    fn test(&mut self, e: &Expr<Target>, known: &mut Environment<'c, 'd>) {
        let is_reported = self.is_reported(e);
        if !is_reported {
            self.check_operand(e, true, &known.clone());
        }
        self.follow(e, known);
    }

    // An operand of which the truth counts: bits or a complement that are never or always 0, what a
    // function always returns, and a variable of which the conditions around tell. A careful one may
    // always hold, which it does where its truth is `wanted`.
    fn check_operand(&mut self, e: &Expr<Target>, wanted: bool, known: &Environment<'_, '_>) {
        let e = without_parentheses(e);
        let kind: fn(bool) -> ConditionKind = match e {
            Expr::Unary(UnaryOperator::Not, inner) => {
                return self.check_operand(inner, !wanted, known);
            }
            Expr::Binary(..) | Expr::Unary(UnaryOperator::Complement, _) => {
                ConditionKind::SettledTest
            }
            Expr::Call { .. } => ConditionKind::SettledHere,
            Expr::Reference(target) => match storage_of(*target) {
                Some(place @ Storage::Variable(_)) if known.knows(place) => {
                    ConditionKind::SettledHere
                }
                _ => return,
            },
            _ => return,
        };
        if !depends(e, known.sort) {
            return;
        }
        let mut fresh = known.clone();
        let truth = fresh.evaluate(e, &mut Nobody).truth();
        let is_careful = self.is_chained || known.reads_passed(e);
        if let Some(truth) = truth.filter(|truth| *truth != wanted || !is_careful) {
            let at = self.context.places.sign(e);
            self.findings.add(at, kind(truth));
        }
    }

    // The last condition of a chain, of which nothing is left for an `else` behind it.
    fn check_last_else(&mut self, condition: &Expr<Target>, sort: Sort) {
        if depends(condition, sort) && !self.is_reported(condition) {
            let at = self.context.places.sign(without_parentheses(condition));
            self.findings.add(at, ConditionKind::SettledHere(true));
        }
    }

    // Whether the labels of a SELECT or a `switch` are compared with what is computed. Those of a
    // variable are checked with its type.
    fn has_computed_labels(&self, on: &Expr<Target>, values: Values, sort: Sort) -> bool {
        let is_variable = referred(on).and_then(variable_of).is_some();
        !is_variable && values.number().is_none() && depends(on, sort)
    }
}
