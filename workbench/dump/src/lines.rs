//! Prints sections, items, elements, strings and attribute rows.

use crate::instructions::{Page, item_text};
use crate::sections::{AttributeRow, Sections};
use crate::strings::string_text;
use edd_display::type_word;
use edd_syntax::numbers::{Attr, ItemNo};
use std::fmt::{self, Formatter};

/// Prints the start and the length of each section.
pub(crate) fn write_sections(f: &mut Formatter<'_>, sections: &Sections<'_>) -> fmt::Result {
    let elements = sections.has_elements.then_some(sections.element_rows);
    let all = [
        ("variable_rows", Some(sections.variable_rows)),
        ("name_rows", Some(sections.name_rows)),
        ("attribute_rows", Some(sections.attribute_rows)),
        ("element_rows", elements),
        ("code", Some(sections.code)),
        ("string_rows", Some(sections.string_rows)),
        ("name_bytes", Some(sections.names)),
        ("string_bytes", Some(sections.strings)),
    ];
    for (name, section) in all {
        if let Some(section) = section {
            let (start, length) = (section.start, section.bytes.len());
            writeln!(f, "section {name} {start} {length}")?;
        }
    }
    Ok(())
}

/// Prints the first `count` items.
pub(crate) fn write_items(
    f: &mut Formatter<'_>,
    sections: &Sections<'_>,
    count: usize,
) -> fmt::Result {
    for item in sections.items().take(count) {
        let (word, number) = (item.kind().word(), item.index());
        write!(f, "{word} {number} {}", name_or_nothing(sections, item))?;
        let kind = match item {
            ItemNo::Variable(variable) => sections.variable(variable),
            _ => None,
        };
        match kind {
            Some(kind) => writeln!(f, " {} {}", type_word(kind.var_type), kind.size)?,
            None => writeln!(f)?,
        }
    }
    Ok(())
}

/// Prints the first `count` elements of arrays.
pub(crate) fn write_elements(
    f: &mut Formatter<'_>,
    sections: &Sections<'_>,
    count: usize,
) -> fmt::Result {
    let elements = (0..count).map_while(|number| Some((number, sections.element(number)?)));
    for (number, element) in elements {
        let array = item_text(sections, ItemNo::Array(element.array));
        let variable = item_text(sections, ItemNo::Variable(element.var));
        let position = element.number;
        writeln!(f, "element {number} {array} number {position} {variable}")?;
    }
    Ok(())
}

/// Prints the first `count` strings.
pub(crate) fn write_strings(
    f: &mut Formatter<'_>,
    sections: &Sections<'_>,
    count: usize,
) -> fmt::Result {
    for (number, string) in sections.strings().enumerate().take(count) {
        write!(f, "string {number}")?;
        let text = string_text(string);
        if !text.is_empty() {
            write!(f, " {text}")?;
        }
        writeln!(f)?;
    }
    Ok(())
}

/// Prints the first `count` attribute rows without their units, which may overlap.
pub(crate) fn write_rows(
    f: &mut Formatter<'_>,
    sections: &Sections<'_>,
    count: usize,
) -> fmt::Result {
    for (number, row) in sections.rows().enumerate().take(count) {
        write_row(f, sections, number, &row)?;
    }
    Ok(())
}

/// Prints all attribute rows, each with the instructions of its unit.
pub(crate) fn write_units(f: &mut Formatter<'_>, sections: &Sections<'_>) -> fmt::Result {
    let page = Page::new(sections);
    for (number, row) in sections.rows().enumerate() {
        write_row(f, sections, number, &row)?;
        page.write_unit(f, sections.unit(&row).unwrap_or_default())?;
    }
    Ok(())
}

fn write_row(
    f: &mut Formatter<'_>,
    sections: &Sections<'_>,
    number: usize,
    row: &AttributeRow,
) -> fmt::Result {
    write!(f, "row {number}")?;
    if let Some((item, attr)) = row.names() {
        let (kind, index) = (item.kind().word(), item.index());
        let (name, attr_word) = (name_or_nothing(sections, item), attr.word());
        write!(f, " {kind} {index} {name} {attr_word}")?;
        if attr.is_of_transaction() {
            write!(f, "[{}]", row.sub)?;
        }
        if attr == Attr::Definition {
            write!(f, " slots {}", row.sub)?;
        }
    }
    writeln!(f, " {}", row.unit)
}

fn name_or_nothing<'b>(sections: &Sections<'b>, item: ItemNo) -> &'b str {
    sections.name(item).unwrap_or_default()
}
