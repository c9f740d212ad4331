//! Values as text: a number, and what it means.

use edd::{Attr, AttrRef, Image, ItemNo, ReadFault, Record, StrNo, Text, Values, VarNo, VarType};
use std::fmt::Write;

/// An image under values, and the code of the language of its texts.
#[derive(Clone, Copy)]
pub(crate) struct Page<'a> {
    pub(crate) image: &'a Image,
    pub(crate) values: &'a Values,
    pub(crate) language: &'a str,
}

impl<'a> Page<'a> {
    /// The name of a variable.
    pub(crate) fn name(&self, variable: VarNo) -> &'a str {
        let item = self.image.item(ItemNo::Variable(variable));
        item.map_or("", |item| item.name)
    }

    /// The value that a variable of 0 has where these bits of it are set.
    pub(crate) fn value_of(&self, variable: VarNo, bits: u32) -> i64 {
        let kind = self.image.variable(variable);
        kind.map_or(0, |kind| edd_machine::stored(kind, bits.into()))
    }

    /// A value of a variable: its number, the texts of its enumerators, and its unit.
    pub(crate) fn value(&self, variable: VarNo, value: i64) -> String {
        let mut text = value.to_string();
        match self.read(variable, Attr::Enumerators) {
            Ok(enumerators) => self.push_enumerators(&mut text, variable, value, &enumerators),
            Err(fault) => push_fault(&mut text, fault),
        }
        match self.read(variable, Attr::ConstantUnit).as_deref() {
            Ok([Record::Words(unit), ..]) => {
                text.push(' ');
                self.push_text(&mut text, *unit);
            }
            Ok(_) => {}
            Err(fault) => push_fault(&mut text, *fault),
        }
        text
    }

    fn read(&self, variable: VarNo, attr: Attr) -> Result<Vec<Record>, ReadFault> {
        let item = ItemNo::Variable(variable);
        let read = self
            .image
            .attribute(AttrRef { item, attr, sub: 0 }, self.values);
        match read {
            Err(ReadFault::NoItem) => Ok(Vec::new()),
            read => read,
        }
    }

    fn push_enumerators(
        &self,
        line: &mut String,
        variable: VarNo,
        number: i64,
        enumerators: &[Record],
    ) {
        let kind = self.image.variable(variable).map(|kind| kind.var_type);
        let is_bits = kind == Some(VarType::BitEnumerated);
        let is_meant = |value: i64| match is_bits {
            true => value & number != 0,
            false => value == number,
        };
        let mut between = " \"";
        for record in enumerators {
            if let Record::Enumerator { value, text, .. } = record
                && is_meant(*value)
            {
                line.push_str(between);
                self.push_text(line, *text);
                line.push('"');
                between = ", \"";
                if !is_bits {
                    return;
                }
            }
        }
    }

    fn push_text(&self, line: &mut String, string: StrNo) {
        match self.image.text(string, self.language) {
            Some(Text::Words(words)) => push_escaped(line, words),
            Some(Text::Key(key)) => {
                line.push('[');
                push_escaped(line, key);
                line.push(']');
            }
            None => {}
        }
    }
}

/// Appends a text with the escapes of `show`, and other control characters by their codes.
fn push_escaped(line: &mut String, text: &str) {
    for character in text.chars() {
        match character {
            '"' | '\\' => line.extend(['\\', character]),
            '\n' => line.push_str("\\n"),
            '\t' => line.push_str("\\t"),
            control if control.is_control() => line.extend(control.escape_unicode()),
            other => line.push(other),
        }
    }
}

fn push_fault(line: &mut String, fault: ReadFault) {
    // Writing to a `String` does not fail.
    let _ = write!(line, " fault {}", fault.name());
}
