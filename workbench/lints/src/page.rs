//! The page of the warnings, docs/WARNINGS.md.

use crate::table::{FAMILIES, Row};
use std::fmt::{self, Write};

/// What the page begins with.
const INTRODUCTION: &str = "\
# Warnings

A description that `compile` accepts can still say what its maker can't have meant: a default value that the variable can't hold, a menu that contains itself, a statement that is never reached. `edd check` reports it ([CHECK](CHECK.md)). A warning changes nothing of the image, and a refused description has none. This page is made from the table of the package `edd-lints` (`workbench/lints`): `cargo run -p edd-lints --example warnings_page` prints it.

Each lint has a name, by which it can be allowed or denied; `edd explain NAME` says in a line what it finds. `all` stands for every lint. A comment with `edd: allow NAME, NAME` allows these lints on its own line and on the next. Warnings come by their lines, and on one line in the order of this page. Some lints find what is right as often as not. They are **off unless denied**, by `--deny NAME` or `--deny all`, and come [last](#off-unless-denied).

Where it isn't certain that something is not meant, there is no warning. Below each lint stand an example that has this one mistake, and one near it without a warning. Nothing is proved of the warnings. Tests play each example, each counterexample and the tables of calls.

A *constant* is an expression without variables, locals, elements of arrays and calls. It is computed as it would be when it is read: with 64 bits in an attribute, with 32 in a method.
";

/// Writes the page with all lints, as markdown.
///
/// ```
/// let page = edd_lints::page();
/// assert!(page.contains("**`unused-item`**"));
/// ```
pub fn page() -> String {
    let mut page = String::from(INTRODUCTION);
    for (heading, rows) in FAMILIES {
        // A String takes all that is written to it.
        let _ = write_family(heading, rows, &mut page);
    }
    page
}

fn write_family(heading: &str, rows: &[Row], page: &mut String) -> fmt::Result {
    writeln!(page, "\n## {heading}")?;
    for row in rows {
        write_row(row, page)?;
    }
    Ok(())
}

fn write_row(row: &Row, page: &mut String) -> fmt::Result {
    let Row { name, details, .. } = row;
    writeln!(page, "\n**`{name}`**: {details}\n")?;
    write_code(row.example, page)?;
    writeln!(page, "\nNo warning:\n")?;
    write_code(row.counterexample, page)?;
    if !row.notes.is_empty() {
        writeln!(page, "\n{}", row.notes)?;
    }
    Ok(())
}

// A character that is not seen stands as its number.
fn write_code(items: &str, page: &mut String) -> fmt::Result {
    for line in items.lines() {
        let line = line.replace('\u{202E}', "<U+202E>");
        writeln!(page, "    {line}")?;
    }
    Ok(())
}
