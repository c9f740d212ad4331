//! Lowers attributes. Their code was worked out by hand from the table of instructions.
//!
//! - `lowered`: a line is a number and an attribute. The table of strings is first filled up to that number;
//!   behind ` -> ` are the bytes of the code and how many strings the table holds then. All lines of a row
//!   share one table. If a row asks a number, so many menus come before its items, and the first menu shows
//!   the last.

use super::compiling::described;
use crate::images::{number, reference_of};
use crate::playing::NoAnswer;
use edd_attrs::lower_attribute;
use edd_plain_std::alloc::Global;
use edd_strings::{Table, split};
use edd_syntax::checked::Checked;

/// Fills the table up to so many strings.
fn fill(table: &mut Table, count: usize) -> Result<(), NoAnswer> {
    for number in table.words().len()..count {
        let words = split(Global, &number.to_string());
        let added = words.and_then(|words| table.add(words));
        added.map_err(|_| NoAnswer::Row("more strings than a table holds"))?;
    }
    Ok(())
}

/// Lowers the attribute that a line names, and returns the line with its answer.
fn line_of(checked: &Checked, table: &mut Table, line: &str) -> Result<String, NoAnswer> {
    let (held, name) = line.split_once(' ').unwrap_or((line, ""));
    fill(table, number(held)?)?;
    let code = match lower_attribute(Global, checked, reference_of(name)?, table) {
        Ok(code) => {
            let bytes = code.iter().map(|byte| format!("{byte:02x} "));
            bytes.collect::<Vec<_>>().concat()
        }
        Err(_) => "refused ".to_owned(),
    };
    Ok(format!("{line} -> {code}and {}", table.words().len()))
}

/// Returns so many menus and then the items; the first menu shows the last.
fn after_menus(count: usize, items: &str) -> String {
    let last = count.saturating_sub(1);
    let menu = |number: usize| match number {
        0 => format!("MENU m0 {{ ITEMS {{ m{last} (DISPLAY_VALUE, REVIEW) }} }}\n"),
        _ => format!("MENU m{number} {{ ITEMS {{ }} }}\n"),
    };
    (0..count).map(menu).chain([items.to_owned()]).collect()
}

pub fn lowered(asked: &str, items: &str, wanted: &str) -> Result<String, NoAnswer> {
    let menus = if asked.is_empty() { 0 } else { number(asked)? };
    let checked = described(&after_menus(menus, items))?;
    let mut table = Table::new(Global);
    let lines = wanted.lines().map(|line| {
        let (line, _) = line.split_once(" -> ").unwrap_or((line, ""));
        line_of(&checked, &mut table, line)
    });
    Ok(lines.collect::<Result<Vec<_>, _>>()?.join("\n"))
}

#[cfg(test)]
mod tests {
    use super::*;

    #[test]
    fn the_first_menu_shows_the_last() {
        assert_eq!(after_menus(0, "x"), "x");
        let two = "MENU m0 { ITEMS { m1 (DISPLAY_VALUE, REVIEW) } }\nMENU m1 { ITEMS { } }\nx";
        assert_eq!(after_menus(2, "x"), two);
    }
}
