//! Limits that cross under conditions, and attributes that depend on themselves.

use crate::context::Context;
use crate::cycles::{Cycle, find_cycles};
use crate::expressions::stores::without_parentheses;
use crate::instrument::{Instrument, Variable};
use crate::kind::VariableKind;
use crate::settled::variables_read;
use crate::source::{Source, TokenIndex, index};
use crate::types::{NumberPart, number_parts};
use crate::values::Values;
use crate::values::environment::Environment;
use crate::values::evaluation::Nobody;
use crate::visit::{Visitor, visit_conditional};
use crate::warning::Findings;
use edd_constants::evaluate;
use edd_instructions::Sort;
use edd_syntax::cond::{Arm, Cond};
use edd_syntax::expr::Expr;
use edd_syntax::item::Attribute;
use edd_syntax::numbers::{ItemNo, NumberOption};
use edd_syntax::operators::{Comparison, Operator};
use edd_syntax::reference::Target;
use edd_syntax::types::VarType;
use std::collections::HashMap;

/// How many pairs of branches of two options are looked at.
const MOST_PAIRS: usize = 1024;

/// What an option gives in one of its branches.
struct Leaf<'c, 'd> {
    /// The conditions around it, as they are written, with the branch of each.
    path: String,
    values: Values,
    /// What it adds to a place, where it does nothing else.
    sum: Option<(Target, i64)>,
    /// What holds in the branch.
    known: Environment<'c, 'd>,
}

/// A walk over the branches of an option.
struct Leaves<'c, 'd> {
    context: &'c Context<'d>,
    all: Vec<Leaf<'c, 'd>>,
}

fn written(e: &Expr<Target>, context: &Context<'_>) -> String {
    let extent = context.places.expression(e).extent;
    let source: Source<'_> = context.source;
    (extent.start..extent.end)
        .map(|at| source.word(at))
        .collect::<Vec<_>>()
        .join(" ")
}

impl<'c, 'd> Leaves<'c, 'd> {
    fn of(part: &NumberPart<'_>, context: &'c Context<'d>) -> Vec<Leaf<'c, 'd>> {
        Leaves::under(part, &Environment::new(Sort::Attribute, context), context)
    }

    // What an option gives where something is known.
    fn under(
        part: &NumberPart<'_>,
        known: &Environment<'c, 'd>,
        context: &'c Context<'d>,
    ) -> Vec<Leaf<'c, 'd>> {
        let mut leaves = Leaves {
            context,
            all: Vec::new(),
        };
        leaves.add(part.value, "", known);
        leaves.all
    }

    fn add(&mut self, c: &Cond<Target, Expr<Target>>, path: &str, known: &Environment<'c, 'd>) {
        match c {
            Cond::Value(e) => self.all.push(Leaf {
                path: path.to_owned(),
                values: known.clone().evaluate(e, &mut Nobody),
                sum: sum_of(e, Sort::Attribute, &self.context.instrument),
                known: known.clone(),
            }),
            Cond::If {
                condition,
                first,
                otherwise,
            } => {
                let text = written(condition, self.context);
                for (branch, truth) in [(first, true), (otherwise, false)] {
                    if let Some(known) = known.clone().refined(condition, truth) {
                        self.add_all(branch, &format!("{path}{text}={truth};"), &known);
                    }
                }
            }
            Cond::Select { on, arms } => {
                let text = written(on, self.context);
                for arm in arms {
                    self.add_arm(arm, on, &format!("{path}{text}="), known);
                }
            }
        }
    }

    fn add_arm(
        &mut self,
        arm: &Arm<Target, Expr<Target>>,
        on: &Expr<Target>,
        path: &str,
        known: &Environment<'c, 'd>,
    ) {
        match arm {
            Arm::Case { label, body } => {
                if let Some(known) = known.clone().selected(on, Comparison::Equal, *label) {
                    self.add_all(body, &format!("{path}{label};"), &known);
                }
            }
            Arm::Default { body, .. } => self.add_all(body, &format!("{path}default;"), known),
        }
    }

    fn add_all(
        &mut self,
        all: &[Cond<Target, Expr<Target>>],
        path: &str,
        known: &Environment<'c, 'd>,
    ) {
        for c in all {
            self.add(c, path, known);
        }
    }
}

// The least of the low ends, and the greatest of the high ends.
fn ends_of<'l, 'c: 'l, 'd: 'c>(
    leaves: impl Iterator<Item = &'l Leaf<'c, 'd>> + Clone,
) -> Option<(i64, i64)> {
    let low = leaves.clone().map(|leaf| leaf.values.range.low).min()?;
    let high = leaves.map(|leaf| leaf.values.range.high).max()?;
    Some((low, high))
}

// Two numbers of which the first is surely over the second: in all branches, or in those of one
// path.
fn crossed(low: &[Leaf<'_, '_>], high: &[Leaf<'_, '_>]) -> Option<(i64, i64)> {
    let whole = ends_of(low.iter()).zip(ends_of(high.iter()));
    if let Some(((least, _), (_, greatest))) = whole.filter(|(low, high)| high.1 < low.0) {
        return Some((least, greatest));
    }
    let by_path: HashMap<_, _> = high.iter().map(|leaf| (leaf.path.as_str(), leaf)).collect();
    let plain = |leaves: &[Leaf<'_, '_>]| match leaves {
        [one] if one.path.is_empty() => Some(one.values),
        _ => None,
    };
    let pairs = low.iter().filter_map(|leaf| {
        let other = plain(high).or_else(|| by_path.get(leaf.path.as_str()).map(|leaf| leaf.values));
        Some((leaf.values, other?))
    });
    let others = high
        .iter()
        .filter_map(|leaf| Some((plain(low)?, leaf.values)));
    let mut pairs = pairs.chain(others);
    let found = pairs.find(|(low, high)| high.range.high < low.range.low)?;
    Some((found.0.range.low, found.1.range.high))
}

// Two numbers of which the first is surely over the second where the conditions of the first hold.
fn crossed_there(
    low: &[Leaf<'_, '_>],
    high: &NumberPart<'_>,
    upper: &[Leaf<'_, '_>],
    context: &Context<'_>,
) -> Option<(i64, i64)> {
    if MOST_PAIRS < low.len().saturating_mul(upper.len()) {
        return None;
    }
    // Only what is over some branch can be over those that are left.
    let smallest = upper.iter().map(|leaf| leaf.values.range.high).min()?;
    let over = low.iter().filter(|leaf| smallest < leaf.values.range.low);
    over.into_iter().find_map(|leaf| {
        let there = Leaves::under(high, &leaf.known, context);
        let (_, greatest) = ends_of(there.iter())?;
        let least = leaf.values.range.low;
        (greatest < least).then_some((least, greatest))
    })
}

fn part_of<'t>(variable: &Variable<'t>, which: NumberOption) -> Option<NumberPart<'t>> {
    number_parts(variable.parts()).find(|part| part.which == which)
}

// Two options of which the first should not be over the second. Of two constants it is checked with
// the type.
fn check_order(
    low: Option<NumberPart<'_>>,
    high: Option<NumberPart<'_>>,
    kind: impl Fn(i64, i64) -> VariableKind,
    context: &Context<'_>,
) -> Option<(TokenIndex, VariableKind, TokenIndex)> {
    let (low, high) = (low?, high?);
    if low.number().is_some() && high.number().is_some() {
        return None;
    }
    let (lower, upper) = (Leaves::of(&low, context), Leaves::of(&high, context));
    let (least, greatest) =
        crossed(&lower, &upper).or_else(|| crossed_there(&lower, &high, &upper, context))?;
    Some((low.at, kind(least, greatest), high.at))
}

/// What an expression adds to something that it reads, where it does nothing else.
pub(crate) fn sum_of(
    e: &Expr<Target>,
    sort: Sort,
    instrument: &Instrument<'_>,
) -> Option<(Target, i64)> {
    match without_parentheses(e) {
        Expr::Reference(target) => Some((*target, 0)),
        Expr::Indexed(array, index) => Some((instrument.element_at(*array, index, sort)?, 0)),
        Expr::Binary(operator, first, second) => {
            let number = |e| evaluate(e, sort).number();
            let (inner, number) = match (operator, number(first), number(second)) {
                (Operator::Add, _, Some(number)) => (first, number),
                (Operator::Add, Some(number), _) => (second, number),
                (Operator::Subtract, _, Some(number)) => (first, number.checked_neg()?),
                _ => return None,
            };
            let (target, so_far) = sum_of(inner, sort, instrument)?;
            Some((target, so_far.checked_add(number)?))
        }
        _ => None,
    }
}

// By how much an option of a branch is over those of another option there, where all are sums with the
// same.
fn distance(one: &Leaf<'_, '_>, others: &[Leaf<'_, '_>]) -> Option<i64> {
    let (place, number) = one.sum?;
    let distances: Option<Vec<_>> = others
        .iter()
        .map(|other| match other.sum? {
            (same, less) if same == place => number.checked_sub(less),
            _ => None,
        })
        .collect();
    distances?.into_iter().min()
}

// The distances of two options in the branches of the first.
fn distances(
    low: &NumberPart<'_>,
    high: &NumberPart<'_>,
    context: &Context<'_>,
) -> Vec<Option<i64>> {
    let (lower, upper) = (Leaves::of(low, context), Leaves::of(high, context));
    let has_sums = |leaves: &[Leaf<'_, '_>]| leaves.iter().any(|leaf| leaf.sum.is_some());
    let is_short = lower.len().saturating_mul(upper.len()) <= MOST_PAIRS;
    if !is_short || !has_sums(&lower) || !has_sums(&upper) {
        return Vec::new();
    }
    let there = |leaf: &Leaf<'_, '_>| {
        leaf.sum?;
        distance(leaf, &Leaves::under(high, &leaf.known, context))
    };
    lower.iter().map(there).collect()
}

// Two options that are sums with the same, of which the first is always over the second.
fn apart(
    low: Option<NumberPart<'_>>,
    high: Option<NumberPart<'_>>,
    kind: impl Fn(i64) -> VariableKind,
    context: &Context<'_>,
) -> Option<(TokenIndex, VariableKind, TokenIndex)> {
    let (low, high) = (low?, high?);
    // A constant is no sum.
    if low.number().is_some() || high.number().is_some() {
        return None;
    }
    let mut over = distances(&low, &high, context).into_iter().flatten();
    let over = over.find(|over| 0 < *over)?;
    Some((low.at, kind(over), high.at))
}

/// Checks the limits of a variable, which may be under conditions.
pub(crate) fn check_limits_under_conditions(
    variable: &Variable<'_>,
    context: &Context<'_>,
    findings: &mut Findings<'_>,
) {
    let least = || part_of(variable, NumberOption::MinValue);
    let greatest = || part_of(variable, NumberOption::MaxValue);
    let default = || part_of(variable, NumberOption::DefaultValue);
    let crossed = check_order(least(), greatest(), VariableKind::CrossedLimits, context)
        .or_else(|| apart(least(), greatest(), VariableKind::LimitsApart, context));
    let over = check_order(default(), greatest(), VariableKind::DefaultOver, context)
        .or_else(|| apart(default(), greatest(), VariableKind::DefaultApart, context));
    for (at, kind, other) in crossed.into_iter().chain(over) {
        findings.add_beside(at, kind, other);
    }
    let below = |least, default| VariableKind::DefaultBelow(default, least);
    let below = check_order(least(), default(), below, context)
        .or_else(|| apart(least(), default(), VariableKind::DefaultApartBelow, context));
    if let Some((other, kind, at)) = below {
        findings.add_beside(at, kind, other);
    }
    check_single_value(variable, least(), greatest(), context, findings);
}

fn check_single_value(
    variable: &Variable<'_>,
    least: Option<NumberPart<'_>>,
    greatest: Option<NumberPart<'_>>,
    context: &Context<'_>,
    findings: &mut Findings<'_>,
) {
    let (Some(least), Some(greatest)) = (least, greatest) else {
        return;
    };
    let is_number = matches!(
        variable.kind,
        Some(VarType::Integer | VarType::UnsignedInteger)
    );
    let same = least
        .number()
        .filter(|number| greatest.number() == Some(*number));
    if !is_number || variable.is_read_only {
        return;
    }
    let are_same = || {
        let distances = distances(&least, &greatest, context);
        !distances.is_empty() && distances.iter().all(|distance| *distance == Some(0))
    };
    if let Some(number) = same {
        findings.add_beside(least.at, VariableKind::SingleValue(number), greatest.at);
    } else if are_same() {
        findings.add_beside(least.at, VariableKind::SameLimits, greatest.at);
    }
}

/// The variables that an attribute reads, and where the attribute is.
struct Reading<'c, 'd> {
    context: &'c Context<'d>,
    at: TokenIndex,
    read: Vec<u16>,
}

impl<'t> Visitor<'t> for Reading<'_, '_> {
    fn expression(&mut self, e: &'t Expr<Target>, sort: Sort) {
        match e {
            Expr::Reference(_) => variables_read(e, &mut self.read),
            Expr::Indexed(Target::Item(ItemNo::Array(array)), index) => {
                let number = evaluate(index, sort).number();
                let instrument = &self.context.instrument;
                let element = number.and_then(|number| instrument.element(array.0, number));
                self.read.extend(element);
            }
            _ => {}
        }
    }
}

/// What attributes of variables may depend on themselves.
#[derive(Clone, Copy, PartialEq, Eq)]
enum Circular {
    Validity,
    Least,
    Greatest,
    Default,
    Handling,
}

impl Circular {
    fn kind(self, variable: String) -> VariableKind {
        match self {
            Circular::Validity => VariableKind::CircularValidity(variable),
            Circular::Least | Circular::Greatest => VariableKind::CircularLimits(variable),
            Circular::Default => VariableKind::CircularDefault(variable),
            Circular::Handling => VariableKind::CircularHandling(variable),
        }
    }

    fn reading<'c, 'd>(self, variable: &Variable<'_>, context: &'c Context<'d>) -> Reading<'c, 'd> {
        let mut reading = Reading {
            context,
            at: 0,
            read: Vec::new(),
        };
        for attribute in &variable.item.attributes {
            match (self, attribute) {
                (Circular::Validity, Attribute::Validity(at, c)) => {
                    reading.at = index(*at);
                    visit_conditional(c, &mut reading);
                }
                (Circular::Handling, Attribute::Handling(at, c)) => {
                    reading.at = index(*at);
                    visit_conditional(c, &mut reading);
                }
                _ => {}
            }
        }
        let limit = match self {
            Circular::Least => NumberOption::MinValue,
            Circular::Greatest => NumberOption::MaxValue,
            Circular::Default => NumberOption::DefaultValue,
            Circular::Validity | Circular::Handling => return reading,
        };
        for part in number_parts(variable.parts()).filter(|part| part.which == limit) {
            reading.at = part.at;
            visit_conditional(part.value, &mut reading);
        }
        reading
    }
}

/// Checks which attributes of variables depend on themselves, by way of others or not.
pub(crate) fn check_circular(context: &Context<'_>, findings: &mut Findings<'_>) {
    let variables = context.instrument.variables();
    let all = [
        Circular::Validity,
        Circular::Least,
        Circular::Greatest,
        Circular::Default,
        Circular::Handling,
    ];
    for which in all {
        let all: Vec<_> = variables
            .iter()
            .map(|one| which.reading(one, context))
            .collect();
        let next = all
            .iter()
            .map(|reading| reading.read.iter().copied().map(usize::from).collect())
            .collect();
        for Cycle { node, by } in find_cycles(next) {
            let places = all.get(node).zip(all.get(by));
            if let (Some((own, other)), Some(variable)) = (places, variables.get(node)) {
                let kind = which.kind(variable.name().to_owned());
                if node == by {
                    findings.add(own.at, kind);
                } else {
                    findings.add_beside(own.at, kind, other.at);
                }
            }
        }
    }
}
