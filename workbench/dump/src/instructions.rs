//! Prints instructions with the names of items and the beginnings of strings.

use crate::core_format::{mask_and_qualifiers, menu_qualifiers};
use crate::sections::Sections;
use crate::strings::excerpt;
use edd_display::class_word;
use edd_instructions::{Ask, Instruction, RequestArgument, decode};
use edd_syntax::numbers::{ItemNo, StrNo, VarNo};
use std::fmt;

/// An image, and an excerpt of each string.
pub(crate) struct Page<'p, 'b> {
    sections: &'p Sections<'b>,
    excerpts: Vec<Option<String>>,
}

impl<'p, 'b> Page<'p, 'b> {
    pub(crate) fn new(sections: &'p Sections<'b>) -> Page<'p, 'b> {
        let excerpts = sections.strings().map(excerpt).collect();
        Page { sections, excerpts }
    }

    /// Prints the instructions of a unit with their places, up to the first unreadable one.
    pub(crate) fn write_unit(&self, f: &mut fmt::Formatter<'_>, code: &[u8]) -> fmt::Result {
        let mut place = 0;
        while let Some((instruction, next)) = decode(code, place) {
            writeln!(f, "  {place} {}", self.shown(instruction))?;
            place = next;
        }
        Ok(())
    }

    /// An instruction in its printed form.
    pub(crate) fn shown(&self, instruction: Instruction) -> impl fmt::Display {
        Shown {
            page: self,
            instruction,
        }
    }

    /// The number and the name of an item.
    fn numbered(&self, item: ItemNo) -> String {
        numbered(self.sections, item)
    }

    fn variable(&self, variable: VarNo) -> String {
        self.numbered(ItemNo::Variable(variable))
    }

    /// The number of a string, and its excerpt.
    fn string(&self, string: StrNo) -> String {
        match self.excerpts.get(usize::from(string.0)) {
            Some(Some(excerpt)) => format!("{} {excerpt}", string.0),
            _ => string.0.to_string(),
        }
    }

    /// An optional text, preceded by its word.
    fn optional(&self, word: &str, text: Option<StrNo>) -> String {
        text.map_or(String::new(), |text| {
            format!(" {word} {}", self.string(text))
        })
    }
}

/// The number of an item, and its name if it exists.
pub(crate) fn numbered(sections: &Sections<'_>, item: ItemNo) -> String {
    match sections.name(item) {
        Some(name) => format!("{} {name}", item.index()),
        None => item.index().to_string(),
    }
}

/// The kind, the number and the name of an item.
pub(crate) fn item_text(sections: &Sections<'_>, item: ItemNo) -> String {
    format!("{} {}", item.kind().word(), numbered(sections, item))
}

struct Shown<'s, 'p, 'b> {
    page: &'s Page<'p, 'b>,
    instruction: Instruction,
}

impl fmt::Display for Shown<'_, '_, '_> {
    fn fmt(&self, f: &mut fmt::Formatter<'_>) -> fmt::Result {
        let page = self.page;
        match self.instruction {
            Instruction::Push(number) => write!(f, "Push {number}"),
            Instruction::Variable(variable) => write!(f, "Variable {}", page.variable(variable)),
            Instruction::Store(variable) => write!(f, "Store {}", page.variable(variable)),
            Instruction::GetLocal(slot) => write!(f, "GetLocal {slot}"),
            Instruction::SetLocal(slot) => write!(f, "SetLocal {slot}"),
            Instruction::ReadElement(array) => {
                write!(f, "ReadElement {}", page.numbered(ItemNo::Array(array)))
            }
            Instruction::Jump(target) => write!(f, "Jump to {target}"),
            Instruction::JumpIfZero(target) => write!(f, "JumpIfZero to {target}"),
            Instruction::JumpIfNotZero(target) => write!(f, "JumpIfNotZero to {target}"),
            Instruction::Case { label, target } => write!(f, "Case {label} to {target}"),
            Instruction::Ask(ask) => page.write_ask(f, ask),
            Instruction::AddAbortMethod(method) => {
                let method = page.numbered(ItemNo::Method(method));
                write!(f, "AddAbortMethod {method}")
            }
            other => page.write_record(f, other),
        }
    }
}

impl Page<'_, '_> {
    fn write_ask(&self, f: &mut fmt::Formatter<'_>, ask: Ask) -> fmt::Result {
        write!(f, "Ask {}", ask.kind.name())?;
        for argument in ask.request(0, 0).arguments() {
            match argument {
                RequestArgument::Text(text) => write!(f, " {}", self.string(text))?,
                RequestArgument::Variable(variable) => write!(f, " {}", self.variable(variable))?,
                RequestArgument::Number(_) => {}
            }
        }
        Ok(())
    }

    /// Prints an instruction that emits a record, or that has no operands in the code.
    fn write_record(&self, f: &mut fmt::Formatter<'_>, instruction: Instruction) -> fmt::Result {
        match instruction {
            Instruction::Text(text) => write!(f, "Text {}", self.string(text)),
            Instruction::Item { item, quals } => {
                let item = item_text(self.sections, item);
                write!(f, "Item {item}{}", menu_qualifiers(quals))
            }
            Instruction::DataConst(number) => write!(f, "DataConst {number}"),
            Instruction::DataVar { var, mask, quals } => {
                let suffix = mask_and_qualifiers(mask, quals);
                write!(f, "DataVar {}{suffix}", self.variable(var))
            }
            Instruction::Enumerator { value, text, help } => {
                write!(f, "Enumerator {value} {}", self.string(text))?;
                f.write_str(&self.optional("help", help))
            }
            Instruction::Response {
                number,
                class,
                text,
            } => {
                let (class, text) = (class_word(class), self.string(text));
                write!(f, "Response {number} {class} {text}")
            }
            Instruction::Member {
                name,
                item,
                label,
                help,
            } => {
                let item = item_text(self.sections, item);
                write!(f, "Member {} {item}", self.string(name))?;
                self.write_texts(f, label, help)
            }
            Instruction::Element {
                number,
                var,
                label,
                help,
            } => {
                let variable = item_text(self.sections, ItemNo::Variable(var));
                write!(f, "Element {number} {variable}")?;
                self.write_texts(f, label, help)
            }
            // The name of the variant is the whole line.
            Instruction::Operate(operator) => write!(f, "{operator:?}"),
            Instruction::Compare(comparison) => write!(f, "{comparison:?}"),
            other => write!(f, "{other:?}"),
        }
    }

    fn write_texts(
        &self,
        f: &mut fmt::Formatter<'_>,
        label: Option<StrNo>,
        help: Option<StrNo>,
    ) -> fmt::Result {
        f.write_str(&self.optional("label", label))?;
        f.write_str(&self.optional("help", help))
    }
}
