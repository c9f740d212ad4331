//! The value of a variable, as a screen has it.
use std::prelude::v1::*;

use crate::format::{Format, PLAIN, format_of};
use crate::words::Page;
use edd_image::VarKind;
use edd_instructions::Record;
use edd_loader::Text;
use edd_machine::Values;
use edd_panel::{Found, bits_of, first_number, is_enumerator, value_of};
use edd_sinks::ListSink;
use edd_syntax::answer::Trap;
use edd_syntax::numbers::{Attr, VarNo};
use edd_syntax::types::VarType;
use std::alloc::{AllocError, Global};

/// HANDLING of a variable that can be written alone.
const WRITE: i64 = 2;

/// The value of a variable, as a screen has it.
pub enum Content<'b> {
    /// None that may be read.
    Nothing,
    Number {
        number: i64,
        size: u8,
        format: Format,
    },
    /// A value of an ENUMERATED, with its label if it has one.
    Named {
        number: i64,
        label: Option<Text<'b>>,
    },
    /// The bits of a BIT_ENUMERATED, and the labels of those that are set.
    Bits { number: i64, labels: Vec<Text<'b>> },
    /// The trap that is in its place.
    Fault(Trap),
}

/// The label of the enumerator of a value.
fn label_of<'b>(page: &Page<'_, 'b>, records: &[Record], number: i64) -> Option<Text<'b>> {
    for item in records {
        if is_enumerator(item, number)
            && let Record::Enumerator { text, .. } = item
        {
            return page.text(*text);
        }
    }
    None
}

/// The labels of the enumerators that have a bit that is set.
fn labels_of<'b>(
    alloc: Global,
    page: &Page<'_, 'b>,
    records: &[Record],
    number: i64,
) -> Result<Vec<Text<'b>>, AllocError> {
    let mut labels = ListSink::new(alloc);
    for item in records {
        if let Record::Enumerator { value, text, .. } = item
            && bits_of(*value) & bits_of(number) != 0
            && let Some(label) = page.text(*text)
        {
            labels.push(label);
        }
    }
    labels.finish()
}

fn content_by<'b>(
    alloc: Global,
    page: &Page<'_, 'b>,
    kind: VarKind,
    number: i64,
    format: Format,
    records: &[Record],
) -> Result<Content<'b>, AllocError> {
    match kind.var_type {
        VarType::Integer | VarType::UnsignedInteger => Ok(Content::Number {
            number,
            size: kind.size,
            format,
        }),
        VarType::Enumerated => Ok(Content::Named {
            number,
            label: label_of(page, records, number),
        }),
        VarType::BitEnumerated => Ok(Content::Bits {
            number,
            labels: labels_of(alloc, page, records, number)?,
        }),
    }
}

fn format_by(page: &Page<'_, '_>, records: &[Record]) -> Format {
    match records {
        [Record::Words(string), ..] => match page.text(*string) {
            Some(Text::Words(text)) => format_of(text),
            _ => PLAIN,
        },
        _ => PLAIN,
    }
}

/// The format that an attribute of a variable says, or the trap that is in its place.
pub fn read_format(
    alloc: Global,
    page: &Page<'_, '_>,
    values: &Values,
    variable: VarNo,
    attr: Attr,
) -> Result<Result<Format, Trap>, AllocError> {
    match page.read(alloc, values, variable, attr)? {
        Found::Records(records) => Ok(Ok(format_by(page, &records))),
        Found::Trap(trap) => Ok(Err(trap)),
        Found::Nothing => Ok(Ok(PLAIN)),
    }
}

/// The value of a variable, in the format that this attribute says.
pub fn content_of<'b>(
    alloc: Global,
    page: &Page<'_, 'b>,
    values: &Values,
    variable: VarNo,
    format: Attr,
) -> Result<Content<'b>, AllocError> {
    let Some(kind) = page.image.variable(variable) else {
        return Ok(Content::Nothing);
    };
    match page.read(alloc, values, variable, Attr::Handling)? {
        Found::Trap(trap) => return Ok(Content::Fault(trap)),
        Found::Records(records) => {
            if first_number(&records) == Some(WRITE) {
                return Ok(Content::Nothing);
            }
        }
        Found::Nothing => {}
    }
    let format = match read_format(alloc, page, values, variable, format)? {
        Ok(format) => format,
        Err(trap) => return Ok(Content::Fault(trap)),
    };
    let number = value_of(values, variable);
    match page.read(alloc, values, variable, Attr::Enumerators)? {
        Found::Records(records) => content_by(alloc, page, kind, number, format, &records),
        Found::Trap(trap) => Ok(Content::Fault(trap)),
        Found::Nothing => content_by(alloc, page, kind, number, format, &[]),
    }
}
