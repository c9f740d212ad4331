//! Indexes that come to numbers of which an array has no element, and divisors that come to 0.

use super::Ways;
use crate::expressions::operands::referred;
use crate::expressions::stores::without_parentheses;
use crate::instrument::{Variable, variable_of};
use crate::kind::ConditionKind;
use crate::limits::sum_of;
use crate::names::target_of;
use crate::source::TokenIndex;
use crate::types::number_parts;
use crate::values::Values;
use crate::values::environment::{Environment, Storage, storage_of};
use crate::values::evaluation::Nobody;
use crate::visit::has_child;
use edd_arithmetic::trap_of;
use edd_constants::evaluate;
use edd_syntax::expr::Expr;
use edd_syntax::numbers::{ItemNo, NumberOption};
use edd_syntax::operators::{Comparison, Operator, UnaryOperator};
use edd_syntax::reference::Target;
use edd_syntax::types::VarType;
use std::ops::RangeInclusive;

/// The longest range of indexes that is looked through.
const LONGEST: i64 = 4096;

/// The longest range of what an operator gives, all of which is reached.
const FEW: i64 = 16;

/// For how many numbers of its variable an expression is computed.
const MOST_RESULTS: usize = 64;

// The numbers of a range that is not too long.
fn numbers_of(values: Values) -> Option<RangeInclusive<i64>> {
    let (low, high) = (values.range.low, values.range.high);
    (values.range.width() <= LONGEST).then_some(low..=high)
}

// What a technician or the device may set a variable to, where that is written.
fn listed_numbers(variable: &Variable<'_>) -> Vec<i64> {
    if !variable.enumerators.is_empty() {
        return variable.enumerators.clone();
    }
    let limit = |which| {
        let mut parts = number_parts(variable.parts()).filter(|part| part.which == which);
        parts.next().and_then(|part| part.number())
    };
    match (limit(NumberOption::MinValue), limit(NumberOption::MaxValue)) {
        (Some(low), Some(high)) if high.saturating_sub(low) <= LONGEST => (low..=high).collect(),
        _ => Vec::new(),
    }
}

/// Checks an index that is no constant.
pub(super) fn check_index(
    ways: &mut Ways<'_, '_, '_>,
    e: &Expr<Target>,
    array: Target,
    index: &Expr<Target>,
    known: &Environment<'_, '_>,
) {
    let Target::Item(ItemNo::Array(array)) = array else {
        return;
    };
    let at = ways.context.places.sign(e);
    let instrument = &ways.context.instrument;
    let is_missing = |number: &i64| !instrument.has_element(array.0, *number);
    let is_constant = evaluate(index, known.sort).number().is_some();
    if is_constant || !instrument.has_elements(array.0) {
        return;
    }
    let values = known.clone().evaluate(index, &mut Nobody);
    if let Some(number) = values.number().filter(is_missing) {
        return ways.findings.add(at, ConditionKind::MissingElement(number));
    }
    let sum = sum_of(index, known.sort, &ways.context.instrument);
    let Some((storage, more)) = sum.and_then(|(target, more)| Some((storage_of(target)?, more)))
    else {
        return check_computed(ways, index, values, at, known, is_missing);
    };
    let counted = known.get(storage);
    if ways.counters.get(&storage) == Some(&counted) {
        let numbers = numbers_of(counted).into_iter().flatten();
        let mut reached = numbers.map(|number| number.saturating_add(more));
        if let Some(number) = reached.find(is_missing) {
            ways.findings
                .add(at, ConditionKind::CountedPastElements(number));
        }
        return;
    }
    check_variable(ways, (storage, more), at, known, is_missing);
}

// Whether an operator gives so few numbers that each of them is reached.
fn gives_few(index: &Expr<Target>) -> bool {
    matches!(
        without_parentheses(index),
        Expr::Compare(..)
            | Expr::LogicalAnd(..)
            | Expr::LogicalOr(..)
            | Expr::Unary(UnaryOperator::Not, _)
            | Expr::Binary(Operator::Remainder, ..)
    )
}

// An index that is computed from one variable, or that is one of few numbers whatever it is computed from.
fn check_computed(
    ways: &mut Ways<'_, '_, '_>,
    index: &Expr<Target>,
    values: Values,
    at: TokenIndex,
    known: &Environment<'_, '_>,
    is_missing: impl Fn(&i64) -> bool,
) {
    let missing = if gives_few(index) && values.range.width() <= FEW {
        let mut numbers = values.range.low..=values.range.high;
        numbers.find(|number| values.holds(*number) && is_missing(number))
    } else {
        let results = results_of(ways, index, known).unwrap_or_default();
        results
            .into_iter()
            .map(|(_, number)| number)
            .find(is_missing)
    };
    if let Some(missing) = missing {
        ways.findings.add(at, ConditionKind::UntestedSum(missing));
    }
}

// The one variable that an expression reads, where it reads nothing else that is no constant.
fn single_variable(e: &Expr<Target>) -> Option<u16> {
    let mut read = Vec::new();
    if !gather(e, &mut read) {
        return None;
    }
    let first = read.first().copied()?;
    read.iter().all(|other| *other == first).then_some(first)
}

// Notes the variables that an expression reads, and returns whether it does nothing else.
fn gather(e: &Expr<Target>, read: &mut Vec<u16>) -> bool {
    match e {
        Expr::Reference(target) => match variable_of(*target) {
            Some(variable) => {
                read.push(variable);
                true
            }
            None => false,
        },
        Expr::Indexed(..)
        | Expr::Assign(..)
        | Expr::CompoundAssign(..)
        | Expr::Increment(..)
        | Expr::Call { .. } => false,
        _ => !has_child(e, |inner| !gather(inner, read)),
    }
}

// What an expression gives for each number that its one variable may be set to, where that is not tested.
fn results_of(
    ways: &Ways<'_, '_, '_>,
    e: &Expr<Target>,
    known: &Environment<'_, '_>,
) -> Option<Vec<(i64, i64)>> {
    let number = single_variable(e)?;
    let storage = Storage::Variable(number);
    if known.knows(storage) || ways.tested.contains(&storage) {
        return None;
    }
    let variable = ways.context.instrument.variable(number)?;
    if MOST_RESULTS < variable.enumerators.len() {
        return None;
    }
    let listed = listed_numbers(variable);
    if MOST_RESULTS < listed.len() {
        return None;
    }
    let place = Expr::Reference(target_of(number));
    let results = listed.into_iter().filter_map(|value| {
        let there = known.clone().selected(&place, Comparison::Equal, value);
        let result = there?.evaluate(e, &mut Nobody).number()?;
        Some((value, result))
    });
    Some(results.collect())
}

/// Checks a divisor, or a number of bits by which something is shifted, that is computed: whether it traps for
/// a number that its variable may be set to.
pub(super) fn check_divisor(
    ways: &mut Ways<'_, '_, '_>,
    e: &Expr<Target>,
    operator: Operator,
    second: &Expr<Target>,
    known: &Environment<'_, '_>,
) {
    let can_trap = matches!(
        operator,
        Operator::Divide | Operator::Remainder | Operator::ShiftLeft | Operator::ShiftRight
    );
    if !can_trap || evaluate(second, known.sort).number().is_some() {
        return;
    }
    // A plain variable is seldom what its limits let it be, but what its enumerators say it is.
    let plain = storage_of_reference(second);
    let is_named = |storage: Storage| match storage {
        Storage::Variable(number) => {
            let variable = ways.context.instrument.variable(number);
            variable.is_some_and(|variable| variable.kind == Some(VarType::Enumerated))
        }
        Storage::Local(_) => false,
    };
    if plain.is_some_and(|storage| !is_named(storage)) {
        return;
    }
    let results = results_of(ways, second, known).unwrap_or_default();
    let mut traps = results
        .into_iter()
        .filter(|(_, result)| trap_of(known.sort, operator, *result).is_some());
    if let (Some((value, _)), Some(number)) = (traps.next(), single_variable(second)) {
        let name = ways.context.instrument.name_of(number);
        let at = ways.context.places.sign(e);
        ways.findings
            .add(at, ConditionKind::UntestedDivisor(name, value));
    }
}

fn storage_of_reference(e: &Expr<Target>) -> Option<Storage> {
    referred(e).and_then(storage_of)
}

// An index that is a variable of which nothing is known but its type, or a sum of it and a constant.
fn check_variable(
    ways: &mut Ways<'_, '_, '_>,
    (storage, more): (Storage, i64),
    at: TokenIndex,
    known: &Environment<'_, '_>,
    is_missing: impl Fn(&i64) -> bool,
) {
    let Storage::Variable(number) = storage else {
        return;
    };
    let Some(variable) = ways.context.instrument.variable(number) else {
        return;
    };
    let is_untested = !known.knows(storage);
    let listed = listed_numbers(variable);
    let mut indexes = listed.into_iter().map(|number| number.saturating_add(more));
    if let Some(missing) = indexes.find(is_missing).filter(|_| is_untested) {
        let kind = if more == 0 {
            ConditionKind::UntestedIndex(variable.name().to_owned(), missing)
        } else {
            ConditionKind::UntestedSum(missing)
        };
        ways.findings.add(at, kind);
    }
}
