//! What may stand at a place, as far as the braces and words before it say.

use edd_syntax::numbers::{Attr, Home, Kind, ValueKind};
use edd_syntax::symbols::Keyword;

/// What braces hold.
#[derive(Clone, Copy, Debug, PartialEq, Eq)]
pub(crate) enum Braces {
    /// The attributes of an item.
    Item(Kind),
    /// The parts of a TRANSACTION.
    Transaction,
    /// The parts of a TYPE.
    Type,
    Enumerator,
    /// The elements of ITEMS, REQUEST or REPLY, also under a condition.
    List(Keyword),
    /// A branch of an attribute that has one value.
    Branch(Keyword),
    Members,
    Elements,
    ResponseCodes,
    /// The body of a method, or a block in it.
    Body,
    Other,
}

/// What may stand at a place.
#[derive(Clone, Copy, Debug, PartialEq, Eq)]
pub(crate) enum Place {
    /// An item.
    Top,
    /// What comes between an item's word and its braces.
    Head(Kind),
    /// The word of an attribute or a part in these braces.
    Start(Braces),
    /// The value of an attribute.
    Value(Keyword),
    /// An expression in an attribute.
    Expression,
    /// An element of ITEMS, REQUEST or REPLY.
    Entry(Keyword),
    /// A qualifier of such an element.
    Qualifier(Keyword),
    /// The name of a member of a collection.
    MemberName,
    /// The item of a member, which has this kind.
    MemberItem(Option<Kind>),
    /// The number of an element of an array.
    ElementNumber,
    /// The variable of an element.
    ElementVariable,
    /// The class of a response code.
    ResponseClass,
    /// The name of a local that is declared.
    Declarator,
    /// A statement or an expression of a method.
    Body,
    Other,
}

impl Place {
    /// Whether a name there refers to what is declared elsewhere.
    pub(crate) fn refers(self) -> bool {
        match self {
            Place::Value(word) => is_number_word(word),
            Place::Expression
            | Place::Entry(_)
            | Place::MemberItem(_)
            | Place::ElementVariable
            | Place::Body => true,
            _ => false,
        }
    }

    pub(crate) fn is_in_body(self) -> bool {
        matches!(self, Place::Body | Place::Declarator)
    }
}

/// What is known of a place.
#[derive(Clone, Copy, Debug)]
pub(crate) struct Spot {
    pub(crate) place: Place,
    /// The token that opened the innermost braces around it.
    pub(crate) open: Option<usize>,
    /// Whether it is in parentheses inside of these.
    pub(crate) is_in_parentheses: bool,
}

/// Whether an attribute of this word has an expression as its value.
pub(crate) fn is_number_word(word: Keyword) -> bool {
    Attr::from_word(word).is_some_and(|attr| attr.shape().value == ValueKind::Expression)
}

/// Whether a word begins a part in the braces of TYPE.
pub(crate) fn is_type_part(word: Keyword) -> bool {
    Attr::from_word(word).is_some_and(|attr| attr.shape().home == Home::Type)
}

/// Whether a word begins an attribute of an item.
pub(crate) fn is_attribute(word: Keyword) -> bool {
    Attr::begun_by(word).is_some()
}
