//! Stores of what is known at their place, and is no constant where it is written.

use super::{Ways, depends};
use crate::instrument::variable_of;
use crate::kind::{MethodKind, VariableKind};
use crate::source::TokenIndex;
use crate::values::Values;
use crate::values::environment::Environment;
use edd_syntax::expr::Expr;
use edd_syntax::reference::Target;

/// Checks a store of values in a variable: numbers that are none of its enumerators, or outside of its type
/// or its limits. 0 often says that there is none.
pub(super) fn check_store(
    ways: &mut Ways<'_, '_, '_>,
    e: &Expr<Target>,
    to: Target,
    values: Values,
    known: &Environment<'_, '_>,
) {
    let Expr::Assign(_, value) = e else {
        return;
    };
    let at = ways.context.places.sign(e);
    let is_told = ways.findings.is_reported(ways.context.source.span(at));
    if is_told || !depends(value, known.sort) {
        return;
    }
    let kind = variable_of(to).and_then(|variable| kind_of(ways, variable, values));
    if let Some(kind) = kind {
        add(ways, at, kind);
    }
}

/// What is wrong with a store.
enum Wrong {
    Value(VariableKind),
    Store(MethodKind),
}

fn add(ways: &mut Ways<'_, '_, '_>, at: TokenIndex, wrong: Wrong) {
    match wrong {
        Wrong::Value(kind) => ways.findings.add(at, kind),
        Wrong::Store(kind) => ways.findings.add(at, kind),
    }
}

// What is wrong with these values in a variable.
fn kind_of(ways: &Ways<'_, '_, '_>, variable: u16, values: Values) -> Option<Wrong> {
    let variable = ways.context.instrument.variable(variable)?;
    let (low, high) = (values.range.low, values.range.high);
    let name = || variable.name().to_owned();
    if let Some(number) = values.number().filter(|number| *number != 0) {
        let range = variable.range?;
        // All 32 bits with which a method computes are kept.
        let keeps_bits = range.width() == i64::from(u32::MAX);
        if !range.holds(number) && !keeps_bits {
            return Some(Wrong::Store(MethodKind::StoreOutOfRange(number, range)));
        }
        if variable.lacks(number) {
            return Some(Wrong::Value(VariableKind::Unlisted(number, name())));
        }
    }
    let is_zero = low == 0 && high == 0;
    if let Some(least) = variable.least.filter(|least| high < *least && !is_zero) {
        return Some(Wrong::Store(MethodKind::StoreBelowLimit(high, least)));
    }
    // Where the other one of two was chosen, nothing but the limit is within.
    let is_wide = low < high;
    if let Some(greatest) = variable
        .greatest
        .filter(|greatest| is_wide && *greatest == low)
    {
        return Some(Wrong::Store(MethodKind::StoreAtMost(greatest)));
    }
    if let Some(least) = variable
        .least
        .filter(|least| is_wide && *least == high && *least != 0)
    {
        return Some(Wrong::Store(MethodKind::StoreAtLeast(least)));
    }
    let greatest = variable.greatest.filter(|greatest| *greatest < low)?;
    Some(Wrong::Store(MethodKind::StoreOverLimit(low, greatest)))
}
