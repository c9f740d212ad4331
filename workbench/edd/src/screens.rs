//! What a panel shows, as data.

use crate::EditFault;
use edd_image::VarKind;
use edd_loader::Text;
use edd_syntax::answer::Trap;
use edd_syntax::numbers::ItemNo;
use std::fmt;

/// Words on a screen.
///
/// They print as the program `edd` shows them, but without escapes: a text as it is, a key of a
/// dictionary between brackets, and a trap as `fault` and its word.
#[derive(Clone, Copy, Debug, PartialEq, Eq)]
pub enum Words<'b> {
    /// A text, or a key of a dictionary.
    Text(Text<'b>),
    /// The name of an item that has no label.
    Name(&'b str),
    /// The trap that stands in their place.
    Fault(Trap),
}

impl<'b> Words<'b> {
    pub(crate) fn from_core(words: legacy_screens::Words<'b>) -> Words<'b> {
        match words {
            legacy_screens::Words::Text(text) => Words::Text(text),
            legacy_screens::Words::Name(name) => Words::Name(name),
            legacy_screens::Words::Fault(trap) => Words::Fault(trap),
        }
    }
}

impl fmt::Display for Words<'_> {
    fn fmt(&self, f: &mut fmt::Formatter<'_>) -> fmt::Result {
        match self {
            Words::Text(Text::Words(text)) | Words::Name(text) => f.write_str(text),
            Words::Text(Text::Key(key)) => write!(f, "[{key}]"),
            Words::Fault(Trap::DivZero) => f.write_str("fault DIV_ZERO"),
            Words::Fault(Trap::DivOverflow) => f.write_str("fault DIV_OVERFLOW"),
            Words::Fault(Trap::BadShift) => f.write_str("fault BAD_SHIFT"),
            Words::Fault(Trap::NoElement) => f.write_str("fault NO_ELEMENT"),
        }
    }
}

/// In which digits a number is shown.
#[derive(Clone, Copy, Debug, PartialEq, Eq)]
pub enum Radix {
    /// With its sign.
    Decimal,
    /// A negative number as the unsigned one with the same bits, here and below.
    Unsigned,
    /// To the base 8.
    Octal,
    /// To the base 16.
    Hexadecimal,
    /// To the base 16, with upper-case letters.
    UpperHexadecimal,
}

/// How a number is shown.
#[derive(Clone, Copy, Debug, PartialEq, Eq)]
pub struct Format {
    /// In which digits.
    pub radix: Radix,
    /// The least count of characters, at most 99.
    pub width: u8,
    /// Whether zeros fill it up, instead of spaces.
    pub zeros: bool,
}

impl Format {
    fn from_core(format: legacy_screens::Format) -> Format {
        let radix = match format.radix {
            legacy_screens::Radix::Decimal => Radix::Decimal,
            legacy_screens::Radix::Unsigned => Radix::Unsigned,
            legacy_screens::Radix::Octal => Radix::Octal,
            legacy_screens::Radix::Hexadecimal => Radix::Hexadecimal,
            legacy_screens::Radix::UpperHexadecimal => Radix::UpperHexadecimal,
        };
        Format {
            radix,
            width: format.width,
            zeros: format.zeros,
        }
    }
}

/// The value of a variable, as a screen shows it.
#[derive(Clone, Debug, PartialEq, Eq)]
pub enum Content<'b> {
    /// It may not be read.
    Nothing,
    /// A number.
    Number {
        /// The value.
        number: i64,
        /// The size of the variable in octets.
        size: u8,
        /// How it is shown.
        format: Format,
    },
    /// A value of an ENUMERATED.
    Named {
        /// The value.
        number: i64,
        /// The label of its enumerator.
        label: Option<Text<'b>>,
    },
    /// The bits of a BIT_ENUMERATED.
    Bits {
        /// The value.
        number: i64,
        /// The labels of the bits that are set.
        labels: Vec<Text<'b>>,
    },
    /// The trap that stands in its place.
    Fault(Trap),
}

impl<'b> Content<'b> {
    fn from_core(content: legacy_screens::Content<'b>) -> Content<'b> {
        match content {
            legacy_screens::Content::Nothing => Content::Nothing,
            legacy_screens::Content::Number {
                number,
                size,
                format,
            } => Content::Number {
                number,
                size,
                format: Format::from_core(format),
            },
            legacy_screens::Content::Named { number, label } => Content::Named { number, label },
            legacy_screens::Content::Bits { number, labels } => Content::Bits {
                number,
                labels: labels.into_real(),
            },
            legacy_screens::Content::Fault(trap) => Content::Fault(trap),
        }
    }
}

/// What an entry leads to.
#[derive(Clone, Debug, PartialEq, Eq)]
pub enum Leads<'b> {
    /// A variable.
    Variable {
        /// Its value.
        content: Content<'b>,
        /// Its CONSTANT_UNIT.
        unit: Option<Words<'b>>,
        /// Whether it cannot be changed here.
        read_only: bool,
    },
    /// A menu or a collection.
    Menu,
    /// A method.
    Method,
    /// The VALIDITY of the item traps, so nobody knows whether it is there.
    Fault(Trap),
}

/// A line of a screen.
#[derive(Clone, Debug, PartialEq, Eq)]
pub enum Row<'b> {
    /// A text, which has no number.
    Text(Words<'b>),
    /// An entry. The entries of a screen are numbered from 1.
    Entry {
        /// The item that it opens.
        item: ItemNo,
        /// What it is called.
        label: Words<'b>,
        /// What it leads to.
        leads: Leads<'b>,
    },
}

impl<'b> Row<'b> {
    fn from_core(row: legacy_screens::Row<'b>) -> Row<'b> {
        match row {
            legacy_screens::Row::Text(words) => Row::Text(Words::from_core(words)),
            legacy_screens::Row::Entry { item, label, leads } => Row::Entry {
                item,
                label: Words::from_core(label),
                leads: Leads::from_core(leads),
            },
        }
    }
}

impl<'b> Leads<'b> {
    fn from_core(leads: legacy_screens::Leads<'b>) -> Leads<'b> {
        match leads {
            legacy_screens::Leads::Variable {
                content,
                unit,
                read_only,
            } => Leads::Variable {
                content: Content::from_core(content),
                unit: unit.map(Words::from_core),
                read_only,
            },
            legacy_screens::Leads::Menu => Leads::Menu,
            legacy_screens::Leads::Method => Leads::Method,
            legacy_screens::Leads::Fault(trap) => Leads::Fault(trap),
        }
    }
}

/// The screen of a menu, a collection or the top.
#[derive(Clone, Debug, PartialEq, Eq)]
pub struct Screen<'b> {
    /// The label of the menu or the collection.
    pub title: Option<Words<'b>>,
    /// Its lines.
    pub rows: Vec<Row<'b>>,
    /// The trap that stands in their place.
    pub trap: Option<Trap>,
}

impl<'b> Screen<'b> {
    pub(crate) fn from_core(screen: legacy_screens::Screen<'b>) -> Screen<'b> {
        let rows = screen.rows.into_real();
        Screen {
            title: screen.title.map(Words::from_core),
            rows: rows.into_iter().map(Row::from_core).collect(),
            trap: screen.trap,
        }
    }
}

/// A limit of what may be entered.
#[derive(Clone, Copy, Debug, PartialEq, Eq)]
pub enum Bound {
    /// There is none.
    None,
    /// The limit itself may be entered.
    Number(i64),
    /// The trap that stands in its place.
    Fault(Trap),
}

impl Bound {
    fn from_core(bound: legacy_screens::Bound) -> Bound {
        match bound {
            legacy_screens::Bound::None => Bound::None,
            legacy_screens::Bound::Number(number) => Bound::Number(number),
            legacy_screens::Bound::Fault(trap) => Bound::Fault(trap),
        }
    }
}

/// A value, or a bit, that has a name.
#[derive(Clone, Copy, Debug, PartialEq, Eq)]
pub struct Choice<'b> {
    /// The value or the bit.
    pub value: i64,
    /// Its name.
    pub label: Option<Text<'b>>,
    /// Its help.
    pub help: Option<Text<'b>>,
}

impl<'b> Choice<'b> {
    fn from_core(choice: legacy_screens::Choice<'b>) -> Choice<'b> {
        Choice {
            value: choice.value,
            label: choice.label,
            help: choice.help,
        }
    }
}

/// What is shown of a variable where it is edited.
#[derive(Clone, Debug, PartialEq, Eq)]
pub struct Sheet<'b> {
    /// What it is called.
    pub label: Words<'b>,
    /// Its HELP.
    pub help: Option<Words<'b>>,
    /// Its type and size.
    pub kind: Option<VarKind>,
    /// Its value.
    pub content: Content<'b>,
    /// Its CONSTANT_UNIT.
    pub unit: Option<Words<'b>>,
    /// How numbers are entered.
    pub format: Format,
    /// Its MIN_VALUE.
    pub lowest: Bound,
    /// Its MAX_VALUE.
    pub highest: Bound,
    /// The values and bits that have names.
    pub choices: Vec<Choice<'b>>,
    /// The trap that stands in the place of the choices.
    pub trap: Option<Trap>,
    /// Why it cannot be changed here, whatever the number is.
    pub refused: Option<EditFault>,
}

impl<'b> Sheet<'b> {
    pub(crate) fn from_core(sheet: legacy_screens::Sheet<'b>) -> Sheet<'b> {
        let choices = sheet.choices.into_real();
        Sheet {
            label: Words::from_core(sheet.label),
            help: sheet.help.map(Words::from_core),
            kind: sheet.kind,
            content: Content::from_core(sheet.content),
            unit: sheet.unit.map(Words::from_core),
            format: Format::from_core(sheet.format),
            lowest: Bound::from_core(sheet.lowest),
            highest: Bound::from_core(sheet.highest),
            choices: choices.into_iter().map(Choice::from_core).collect(),
            trap: sheet.trap,
            refused: sheet.refused.map(EditFault::from_core),
        }
    }
}

#[cfg(test)]
mod tests {
    use super::*;
    use crate::memory::{Global, made};
    use legacy_panel_lines::{TextSink, push_words};

    #[test]
    fn words_print_as_those_of_the_core() {
        let traps = [
            Trap::DivZero,
            Trap::DivOverflow,
            Trap::BadShift,
            Trap::NoElement,
        ];
        let texts = [Text::Words("Druck"), Text::Key("pressure_label")];
        let words = traps
            .map(legacy_screens::Words::Fault)
            .into_iter()
            .chain(texts.map(legacy_screens::Words::Text))
            .chain([legacy_screens::Words::Name("p")]);
        for words in words {
            let mut line = TextSink::new(Global);
            push_words(&mut line, words);
            let line = made(line.finish());
            assert_eq!(Words::from_core(words).to_string(), line.as_str());
        }
    }
}
