//! Prints where the fault is: the last line of a dump of bytes that are no image.

use crate::depth::depth_at;
use crate::header::HeaderFault;
use crate::instructions::Page;
use crate::sections::{Section, Sections, Span};
use edd_image::{ATTRIBUTE_ROW, ELEMENT_ROW, NAME_ROW, STRING_ROW, VARIABLE_ROW};
use edd_instructions::decode;
use edd_loader::{Site, Spot};
use edd_syntax::numbers::Element;
use std::fmt::{self, Formatter};

/// Prints a fault in the header.
pub(crate) fn write_header_fault(
    f: &mut Formatter<'_>,
    bytes: &[u8],
    fault: &HeaderFault<'_>,
) -> fmt::Result {
    match fault {
        HeaderFault::Ends => writeln!(f, "fault {} header", bytes.len()),
        HeaderFault::Field(field) => writeln!(f, "fault {} header {}", field.place(), field.name()),
    }
}

/// Prints a fault in a row, a name, a string or an instruction: its place, what is there, and its
/// fields. The row after the last one stands for the end of its section, and has no fields.
pub(crate) fn write_fault(
    f: &mut Formatter<'_>,
    sections: &Sections<'_>,
    spot: Spot,
) -> fmt::Result {
    let place = place_of(sections, spot);
    let (word, number) = name_of(spot);
    write!(f, "fault {place} {word} {number}")?;
    match fields_at(sections, spot) {
        Some(fields) => writeln!(f, " {fields}"),
        None => writeln!(f),
    }
}

/// What a spot is called, and which one it is.
fn name_of(spot: Spot) -> (&'static str, usize) {
    match spot {
        Spot::VariableRow(number) => ("variable_row", number),
        Spot::NameRow(number) => ("name_row", number),
        Spot::AttributeRow(number) => ("attribute_row", number),
        Spot::ElementRow(number) => ("element_row", number),
        Spot::StringRow(number) => ("string_row", number),
        Spot::Name(number) => ("name", number),
        Spot::String(number) => ("string", number),
        Spot::Instruction(site) => ("row", site.row),
        Spot::Header | Spot::Zero | Spot::SecondZero => ("header", 0),
    }
}

/// Where a spot begins in the image.
fn place_of(sections: &Sections<'_>, spot: Spot) -> usize {
    match spot {
        Spot::VariableRow(number) => row_place(sections.variable_rows, VARIABLE_ROW, number),
        Spot::NameRow(number) => row_place(sections.name_rows, NAME_ROW, number),
        Spot::AttributeRow(number) => row_place(sections.attribute_rows, ATTRIBUTE_ROW, number),
        Spot::ElementRow(number) => row_place(sections.element_rows, ELEMENT_ROW, number),
        Spot::StringRow(number) => row_place(sections.string_rows, STRING_ROW, number),
        Spot::Name(number) => place_in(sections.names, sections.name_span(number)),
        Spot::String(number) => place_in(sections.strings, sections.string_span(number)),
        Spot::Instruction(site) => {
            let unit = sections.attribute_row(site.row).map(|row| row.unit);
            place_in(sections.code, unit).saturating_add(site.place)
        }
        Spot::Header | Spot::Zero | Spot::SecondZero => 0,
    }
}

/// What is there, where it can be read.
fn fields_at(sections: &Sections<'_>, spot: Spot) -> Option<String> {
    match spot {
        Spot::VariableRow(number) => text(sections.variable_row(number)),
        Spot::AttributeRow(number) => text(sections.attribute_row(number)),
        Spot::ElementRow(number) => sections.element(number).map(element_text),
        Spot::NameRow(number) | Spot::Name(number) => text(sections.name_span(number)),
        Spot::StringRow(number) | Spot::String(number) => text(sections.string_span(number)),
        Spot::Instruction(site) => Some(instruction_text(sections, site)),
        Spot::Header | Spot::Zero | Spot::SecondZero => None,
    }
}

fn text(fields: Option<impl ToString>) -> Option<String> {
    fields.map(|fields| fields.to_string())
}

/// The place of a row in the image.
fn row_place(section: Section<'_>, width: usize, number: usize) -> usize {
    section.start.saturating_add(width.saturating_mul(number))
}

/// The place of a part of a section in the image.
fn place_in(section: Section<'_>, span: Option<Span>) -> usize {
    let start = span.and_then(|span| usize::try_from(span.start).ok());
    section.start.saturating_add(start.unwrap_or(0))
}

fn element_text(element: Element) -> String {
    let (array, variable, number) = (element.array.0, element.var.0, element.number);
    format!("array {array} variable {variable} number {number}")
}

/// The place of an instruction in its unit, the depth of the stack, and the instruction, if it can be
/// read.
fn instruction_text(sections: &Sections<'_>, site: Site) -> String {
    let Site { row, place } = site;
    let row = sections.attribute_row(row);
    let code = row.and_then(|row| sections.unit(&row)).unwrap_or_default();
    let depth = depth_at(code, place);
    let found = (place <= code.len()).then(|| decode(code, place)).flatten();
    match found {
        Some((instruction, _)) => {
            let page = Page::new(sections);
            format!("place {place} depth {depth} {}", page.shown(instruction))
        }
        None => format!("place {place} depth {depth} none"),
    }
}
