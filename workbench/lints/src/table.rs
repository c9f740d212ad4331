//! The table of the lints: what `edd explain` prints, and what docs/WARNINGS.md is made of.

mod asked;
mod commands;
mod conditions;
mod flow;
mod menus;
mod methods;
mod texts;
mod variables;

use crate::levels::Level;
use crate::lint::Lint;

/// What is said of a lint.
pub(crate) struct Row {
    pub(crate) lint: Lint,
    pub(crate) name: &'static str,
    pub(crate) level: Level,
    pub(crate) summary: &'static str,
    pub(crate) details: &'static str,
    pub(crate) example: &'static str,
    pub(crate) counterexample: &'static str,
    pub(crate) notes: &'static str,
}

/// The families of lints with their headings.
pub(crate) const FAMILIES: &[(&str, &[Row])] = &[
    ("Variables", variables::ROWS),
    ("Commands", commands::ROWS),
    ("Expressions and conditions", conditions::ROWS),
    ("Menus, classes and uses", menus::ROWS),
    ("Texts and comments", texts::ROWS),
    ("Statements and values", methods::ROWS),
    ("Ways through methods", flow::ROWS),
    ("Off unless denied", asked::ROWS),
];

/// What is said of a lint that has no row. A test sees to it that each has one.
const NONE: Row = Row {
    lint: Lint::UnusedItem,
    name: "",
    level: Level::Allow,
    summary: "",
    details: "",
    example: "",
    counterexample: "",
    notes: "",
};

fn rows() -> impl Iterator<Item = &'static Row> {
    FAMILIES.iter().flat_map(|(_, rows)| rows.iter())
}

impl Row {
    /// The row of a lint.
    pub(crate) fn of(lint: Lint) -> &'static Row {
        rows().find(|row| row.lint == lint).unwrap_or(&NONE)
    }

    /// The row of the lint of a name.
    pub(crate) fn named(name: &str) -> Option<&'static Row> {
        rows().find(|row| row.name == name)
    }
}
