//! The value of an attribute, in a form that can be compared.

use crate::reading::Reading;
use crate::records::{Records, number_text};
use edd_dump::Sections;
use edd_instructions::Instruction;
use edd_syntax::numbers::{Attr, StrNo, ValueKind};
use std::collections::HashMap;
use std::rc::Rc;

/// How the content of an attribute is compared.
#[derive(Clone, Copy, Debug, PartialEq, Eq)]
pub(crate) enum Shape {
    /// One value, or one for each condition.
    Value,
    /// Entries that are matched by their keys.
    List,
    /// Entries whose order matters.
    Message,
}

impl Shape {
    pub(crate) fn of(attribute: Attr) -> Shape {
        match attribute.shape().value {
            ValueKind::ClassWord
            | ValueKind::Enumerator
            | ValueKind::ResponseCode
            | ValueKind::MenuEntry
            | ValueKind::Member
            | ValueKind::Element => Shape::List,
            ValueKind::DataItem => Shape::Message,
            _ => Shape::Value,
        }
    }
}

/// What an attribute has.
pub(crate) struct Content {
    /// In source order.
    pub(crate) entries: Vec<Entry>,
    /// Whether the code has conditions.
    pub(crate) has_conditions: bool,
}

/// One record of an attribute.
pub(crate) struct Entry {
    /// The condition under which the attribute has it, as an expression; empty where it always does.
    pub(crate) condition: Rc<str>,
    /// What identifies it in a list.
    pub(crate) key: String,
    pub(crate) text: String,
    pub(crate) kind: EntryKind,
}

/// What an entry is, beyond its text.
#[derive(Clone, Copy, Debug, PartialEq, Eq)]
pub(crate) enum EntryKind {
    Number(i64),
    /// A number that depends on the values of the device.
    Expression,
    Text(StrNo),
    Other,
}

impl Content {
    /// Reads the code of an attribute. Returns None for code that the compiler does not write.
    pub(crate) fn read(sections: &Sections<'_>, attribute: Attr, code: &[u8]) -> Option<Content> {
        let mut reading = Reading::read(sections, code)?;
        if Shape::of(attribute) == Shape::Value {
            // The code of DEFAULT precedes that of the cases.
            reading.emitted.sort_by_key(|emitted| emitted.condition);
        } else {
            // That a list has no entry under some condition is no entry.
            let is_entry = |instruction| instruction != Instruction::End;
            reading
                .emitted
                .retain(|emitted| is_entry(emitted.instruction));
        }
        let records = Records {
            sections,
            attribute,
        };
        let mut conditions: HashMap<usize, Rc<str>> = HashMap::new();
        let entries = reading.emitted.iter().map(|emitted| {
            let number = emitted.condition;
            let condition = conditions.entry(number);
            let condition = condition.or_insert_with(|| reading.condition(number).into());
            let value = emitted.value.as_ref().map(|value| value.constant);
            Entry {
                condition: Rc::clone(condition),
                key: records.key(emitted),
                text: records.text(emitted),
                kind: match (value, emitted.instruction) {
                    (Some(Some(number)), _) => EntryKind::Number(number),
                    (Some(None), _) => EntryKind::Expression,
                    (None, Instruction::Text(string)) => EntryKind::Text(string),
                    (None, _) => EntryKind::Other,
                },
            }
        });
        Some(Content {
            entries: entries.collect(),
            has_conditions: reading.has_conditions(),
        })
    }

    /// An attribute that always is this number.
    pub(crate) fn of_number(attribute: Attr, number: i64) -> Content {
        Content {
            entries: vec![Entry {
                condition: Rc::from(""),
                key: String::new(),
                text: number_text(attribute, number),
                kind: EntryKind::Number(number),
            }],
            has_conditions: false,
        }
    }

    /// The single entry, if there is just one and it has no condition.
    pub(crate) fn only(&self) -> Option<&Entry> {
        match self.entries.as_slice() {
            [entry] if entry.condition.is_empty() => Some(entry),
            _ => None,
        }
    }

    /// The entry at an index. A single one stands for each.
    pub(crate) fn entry(&self, number: usize) -> Option<&Entry> {
        self.only().or_else(|| self.entries.get(number))
    }

    /// All entries with their conditions, as one text.
    pub(crate) fn whole_text(&self) -> String {
        if self.entries.is_empty() {
            return "nothing".to_owned();
        }
        let entries: Vec<_> = self.entries.iter().map(Entry::with_condition).collect();
        entries.join(", ")
    }

    /// Whether both have the same conditions, entry by entry.
    pub(crate) fn has_conditions_of(&self, other: &Content) -> bool {
        let conditions = self.entries.iter().map(|entry| &entry.condition);
        conditions.eq(other.entries.iter().map(|entry| &entry.condition))
    }
}

impl Entry {
    /// The text with the condition.
    pub(crate) fn with_condition(&self) -> String {
        if self.condition.is_empty() {
            self.text.clone()
        } else {
            format!("{} where {}", self.text, self.condition)
        }
    }
}
