//! Reads back the JSON that `check` prints of items, which begin at line 2.
//!
//! - `json`: paths in the only line of JSON, each with the value there. A row asks a lint that is denied, or
//!   `-`, and the name of the source.
//! - `many`: how many lines are printed of so many statements that are refused, and the count in the last.

use crate::images::number;
use crate::playing::NoAnswer;
use edd_check::{Checked, Level, Levels, Lint};
use edd_report::json_lines;
use serde_json::Value;

const HEAD: &str = "MANUFACTURER 1, DEVICE_TYPE 2, DEVICE_REVISION 3, DD_REVISION 4\n";

/// Checks a description of these items, and returns what is printed.
fn printed(name: &str, items: &str, denied: Option<Lint>) -> Result<String, NoAnswer> {
    let mut levels = Levels::default();
    if let Some(lint) = denied {
        levels.set(lint, Level::Deny);
    }
    let text = format!("{HEAD}{items}\n");
    let checked = Checked::of(name, text.as_bytes(), &levels);
    json_lines(&checked.source, &checked.report).map_err(|_| NoAnswer::Row("it is not printed"))
}

/// Returns the path of each of these lines with the value there.
fn parts_of(line: &str, wanted: &str) -> Result<String, NoAnswer> {
    let line: Value =
        serde_json::from_str(line).map_err(|_| NoAnswer::Row("no JSON is printed"))?;
    let parts = wanted.lines().map(|part| {
        let (path, _) = part.split_once(' ').unwrap_or((part, ""));
        match line.pointer(path) {
            Some(found) => format!("{path} {found}"),
            None => path.to_owned(),
        }
    });
    Ok(parts.collect::<Vec<_>>().join("\n"))
}

pub fn parts(asked: &str, items: &str, wanted: &str) -> Result<String, NoAnswer> {
    let (denied, name) = asked.split_once(' ').unwrap_or((asked, ""));
    parts_of(&printed(name, items, Lint::from_name(denied))?, wanted)
}

pub fn many(count: &str) -> Result<String, NoAnswer> {
    let statements = "break;\n".repeat(number(count)?);
    let text = printed(
        "s",
        &format!("METHOD m {{ DEFINITION {{\n{statements}}} }}"),
        None,
    )?;
    let last = parts_of(text.lines().last().unwrap_or_default(), "/more")?;
    Ok(format!("{} lines, {last}", text.lines().count()))
}
