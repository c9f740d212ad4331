//! Differences as data.

use edd_display::type_word;
use edd_image::VarKind;
use edd_syntax::numbers::{Attr, Kind};
use edd_syntax::symbols::Keyword;
use std::fmt;

/// The differences between two descriptions: those of the identification, and then for each kind the
/// items that are gone, new or renumbered, and the attributes of each item that both have.
#[derive(Clone, Debug, PartialEq, Eq)]
pub struct Differences<'i> {
    all: Vec<Difference<'i>>,
}

/// One difference.
#[derive(Clone, Debug, PartialEq, Eq)]
pub struct Difference<'i> {
    /// The item. None for the identification.
    pub item: Option<Item<'i>>,
    /// What differs.
    pub what: What<'i>,
    /// The old and the new value.
    pub change: Change<'i>,
    /// The condition under which they differ, as an expression. Empty if they always do.
    pub condition: String,
    /// What the difference means beyond its values.
    pub note: Option<Note>,
}

/// An item, or several adjacent ones.
#[derive(Clone, Copy, Debug, PartialEq, Eq)]
pub struct Item<'i> {
    /// The kind.
    pub kind: Kind,
    /// The name of the item, or of the first of several.
    pub name: &'i str,
    /// The name of the last of several.
    pub last_name: Option<&'i str>,
}

/// What differs.
#[derive(Clone, Copy, Debug, PartialEq, Eq)]
pub enum What<'i> {
    /// A number of the identification.
    Identification(Keyword),
    /// The item itself, which is gone or new.
    Existence,
    /// The number of the item among the items of its kind.
    Number,
    /// The type and the size of a variable.
    Type,
    /// An attribute.
    Attribute(Attr),
    /// An attribute of the transaction at this position.
    Transaction(Attr, u16),
    /// The text of an attribute in the language with this code.
    Text(Attr, &'i str),
}

/// The old and the new value.
#[derive(Clone, Debug, PartialEq, Eq)]
pub enum Change<'i> {
    /// Only the new description has it.
    New(Value<'i>),
    /// Only the old description has it.
    Gone(Value<'i>),
    /// Both have it.
    Replaced {
        /// In the old description.
        old: Value<'i>,
        /// In the new description.
        new: Value<'i>,
    },
    /// Both have it. The values are not shown, and the note says what differs.
    Unshown,
}

/// A value of one description.
#[derive(Clone, Debug, PartialEq, Eq)]
pub enum Value<'i> {
    /// A number.
    Number(u32),
    /// The first and the last number of adjacent items.
    Numbers(u16, u16),
    /// A type and a size.
    Type(VarKind),
    /// A text in one language.
    Text(&'i str),
    /// The value of an attribute in the form of a source.
    Source(String),
}

/// What a difference means beyond its two values.
#[derive(Clone, Copy, Debug, PartialEq, Eq)]
pub enum Note {
    /// Fewer values are allowed.
    Narrower,
    /// More values are allowed.
    Wider,
    /// The form differs. Whether the meaning does depends on the values of the device.
    MayDiffer,
    /// The entries are the same, in another order.
    Order,
    /// The body of a method has other code.
    Code,
}

impl<'i> Differences<'i> {
    pub(crate) fn new(all: Vec<Difference<'i>>) -> Differences<'i> {
        Differences { all }
    }

    /// The differences in their order.
    pub fn all(&self) -> &[Difference<'i>] {
        &self.all
    }
}

impl Difference<'_> {
    /// Whether the change makes an older host or stored values wrong. What is only new breaks nothing,
    /// and neither does what may mean the same.
    pub fn is_breaking(&self) -> bool {
        let is_relied_on = match self.what {
            What::Identification(_) | What::Text(..) => false,
            What::Existence | What::Number | What::Type => true,
            What::Attribute(attribute) | What::Transaction(attribute, _) => is_relied_on(attribute),
        };
        let is_certain = self.note != Some(Note::MayDiffer);
        is_relied_on && is_certain && self.change.old_value().is_some()
    }
}

/// Whether hosts or stored values rely on an attribute.
fn is_relied_on(attribute: Attr) -> bool {
    matches!(
        attribute,
        Attr::Enumerators
            | Attr::Elements
            | Attr::Number
            | Attr::Operation
            | Attr::Transaction
            | Attr::Request
            | Attr::Reply
    )
}

impl<'i> Item<'i> {
    pub(crate) fn new(kind: Kind, name: &'i str) -> Item<'i> {
        Item {
            kind,
            name,
            last_name: None,
        }
    }
}

impl What<'_> {
    /// An attribute. Its `sub` is a position if it belongs to a transaction.
    pub(crate) fn attribute(attribute: Attr, sub: u16) -> Self {
        if attribute.is_of_transaction() {
            What::Transaction(attribute, sub)
        } else {
            What::Attribute(attribute)
        }
    }

    /// The keyword, or a word of this program where EDDL has none.
    pub fn word(self) -> &'static str {
        match self {
            What::Identification(word) => word.spelling(),
            What::Existence => "item",
            What::Number => "number",
            What::Type => Keyword::Type.spelling(),
            What::Attribute(attribute)
            | What::Transaction(attribute, _)
            | What::Text(attribute, _) => attribute.word(),
        }
    }
}

impl<'i> Change<'i> {
    /// A value that only one description has.
    pub(crate) fn of_one(value: Value<'i>, is_new: bool) -> Change<'i> {
        if is_new {
            Change::New(value)
        } else {
            Change::Gone(value)
        }
    }

    /// The value in the old description.
    pub fn old_value(&self) -> Option<&Value<'i>> {
        match self {
            Change::Gone(old) | Change::Replaced { old, .. } => Some(old),
            Change::New(_) | Change::Unshown => None,
        }
    }

    /// The value in the new description.
    pub fn new_value(&self) -> Option<&Value<'i>> {
        match self {
            Change::New(new) | Change::Replaced { new, .. } => Some(new),
            Change::Gone(_) | Change::Unshown => None,
        }
    }
}

impl fmt::Display for Value<'_> {
    fn fmt(&self, f: &mut fmt::Formatter<'_>) -> fmt::Result {
        match self {
            Value::Number(number) => write!(f, "{number}"),
            Value::Numbers(first, last) if first == last => write!(f, "{first}"),
            Value::Numbers(first, last) => write!(f, "{first} to {last}"),
            Value::Type(kind) => write!(f, "{} {}", type_word(kind.var_type), kind.size),
            Value::Text(text) => f.write_str(text),
            Value::Source(text) => f.write_str(text),
        }
    }
}

impl Note {
    /// How it is printed.
    pub fn word(self) -> &'static str {
        match self {
            Note::Narrower => "narrower",
            Note::Wider => "wider",
            Note::MayDiffer => "may differ",
            Note::Order => "another order",
            Note::Code => "other code",
        }
    }
}
