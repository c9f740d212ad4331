//! Looks at the shapes of trees.
//!
//! - `operators`: how many pairs of operators group by their precedence. A line is an operator and the number
//!   of its row in the table of operators.
//! - `elses`: `inner` if the statement is an `if` around the one that has the `else`.
//! - `lists`: how many entries the list of a menu has, how many entries its first `ELSE` has, and whether
//!   the last entry is `c`.

use super::parsing::unit_of_items;
use crate::images::number;
use crate::playing::NoAnswer;
use edd_syntax::cond::Cond;
use edd_syntax::expr::Expr;
use edd_syntax::item::{Attribute, MenuEntry};
use edd_syntax::reference::Path;
use edd_syntax::stmt::{Part, Stmt};
use edd_syntax::unit::Unit;

/// The attributes of the first item.
fn attributes(unit: &Unit) -> &[Attribute<Path>] {
    unit.items.first().map_or(&[], |item| item.attributes())
}

/// The first statement of the first item's first attribute, where that is a body.
fn first_statement(unit: &Unit) -> Option<&Stmt<Path>> {
    match attributes(unit).first()? {
        Attribute::Definition(_, parts) => match parts.first()? {
            Part::Statement(statement) => Some(statement),
            _ => None,
        },
        _ => None,
    }
}

/// The two operands of an operator.
fn operands(expression: &Expr<Path>) -> Option<(&Expr<Path>, &Expr<Path>)> {
    match expression {
        Expr::Binary(_, a, b)
        | Expr::Compare(_, a, b)
        | Expr::LogicalAnd(a, b)
        | Expr::LogicalOr(a, b) => Some((a, b)),
        _ => None,
    }
}

/// Whether an assignment's value is of two operators, and the second one is at its top.
fn groups_left(unit: &Unit) -> Option<bool> {
    let Stmt::Evaluate(Expr::Assign(_, value)) = first_statement(unit)? else {
        return None;
    };
    let (left, right) = operands(value)?;
    match (operands(left), operands(right)) {
        (Some(_), None) => Some(true),
        (None, Some(_)) => Some(false),
        _ => None,
    }
}

/// Reads an operator and the number of its row.
fn operator_of(line: &str) -> Result<(&str, u32), NoAnswer> {
    let halves = line.split_once(' ');
    let (operator, row) = halves.ok_or(NoAnswer::Row("not an operator and its row"))?;
    Ok((operator, number(row)?))
}

/// Returns whether an assignment with these two operators groups them by their rows.
fn is_by_rows((first, row): (&str, u32), (second, next_row): (&str, u32)) -> bool {
    let items = format!("METHOD m {{ DEFINITION {{ x = a {first} b {second} c; }} }}");
    let unit = unit_of_items(&items).ok();
    unit.as_ref().and_then(groups_left) == Some(row >= next_row)
}

pub fn groups(lines: &str) -> Result<String, NoAnswer> {
    let operators: Vec<_> = lines.lines().map(operator_of).collect::<Result<_, _>>()?;
    let pairs = operators
        .iter()
        .flat_map(|first| operators.iter().map(move |second| (*first, *second)));
    Ok(pairs
        .filter(|(first, second)| is_by_rows(*first, *second))
        .count()
        .to_string())
}

/// Whether a unit's first statement is an `if` without `else` around one with it.
fn is_inner_else(unit: &Unit) -> bool {
    match first_statement(unit) {
        Some(Stmt::If(_, inner)) => matches!(**inner, Stmt::IfElse(_, _, _)),
        _ => false,
    }
}

pub fn inner_else(body: &str) -> Result<String, NoAnswer> {
    let unit = unit_of_items(&format!("METHOD m {{ DEFINITION {{ {body} }} }}"))?;
    Ok(if is_inner_else(&unit) {
        "inner"
    } else {
        "outer"
    }
    .to_owned())
}

/// The entries of a menu's list.
fn entries(unit: &Unit) -> Option<&[Cond<Path, MenuEntry<Path>>]> {
    match attributes(unit).first()? {
        Attribute::Items(_, entries) => Some(entries),
        _ => None,
    }
}

/// Whether the last entry is a reference to this name.
fn is_last(entries: &[Cond<Path, MenuEntry<Path>>], name: &str) -> bool {
    match entries.last() {
        Some(Cond::Value(MenuEntry::Reference { to, .. })) => to.base.as_str() == name,
        _ => false,
    }
}

pub fn list(list: &str) -> Result<String, NoAnswer> {
    let unit = unit_of_items(&format!("MENU m {{ ITEMS {{ {list} }} }}"))?;
    let entries = entries(&unit).ok_or(NoAnswer::Row("a menu without a list"))?;
    let after = match entries.first() {
        Some(Cond::If { otherwise, .. }) => otherwise.len(),
        _ => 0,
    };
    Ok(format!(
        "{} {after} {}",
        entries.len(),
        is_last(entries, "c")
    ))
}
