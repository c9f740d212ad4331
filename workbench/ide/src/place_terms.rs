//! Words that are names to the lexer, and mean something in their places.

use crate::spots::Place;
use edd_lints::CLASSES;
use edd_syntax::symbols::Keyword;

/// Where a word means something.
#[derive(Clone, Copy, Debug, PartialEq, Eq)]
pub(crate) enum Role {
    Type,
    Handling,
    Validity,
    Operation,
    EntryQualifier,
    DataQualifier,
    ResponseClass,
    Class,
}

/// What is said of every class.
pub(crate) const CLASS_MEANING: &str = "A class of variables and methods.";

/// The words that mean something there, each with its meaning in a line. Classes are not among them.
pub(crate) fn terms_of(role: Role) -> &'static [(&'static str, &'static str)] {
    match role {
        Role::Type => &[
            ("INTEGER", "A whole number with a sign, of 1 to 4 octets."),
            (
                "UNSIGNED_INTEGER",
                "A whole number without a sign, of 1 to 4 octets.",
            ),
            (
                "ENUMERATED",
                "A number whose values have names: { value, text, help }.",
            ),
            (
                "BIT_ENUMERATED",
                "A number whose bits have names: { value, text, help }.",
            ),
        ],
        Role::Handling => &[
            ("READ", "The variable may be read."),
            ("WRITE", "The variable may be written."),
        ],
        Role::Validity => &[
            ("TRUE", "The item is there."),
            ("FALSE", "The item is not there."),
        ],
        Role::Operation => &[
            ("READ", "The command reads from the device."),
            ("WRITE", "The command writes to the device."),
            ("COMMAND", "The command does something else."),
        ],
        Role::EntryQualifier => &[
            ("DISPLAY_VALUE", "The value is shown beside the label."),
            ("READ_ONLY", "It can't be changed there."),
            ("HIDDEN", "The entry is not shown."),
            (
                "REVIEW",
                "The values of a menu are shown one after the other.",
            ),
        ],
        Role::DataQualifier => &[
            (
                "INFO",
                "The value is carried for information, and not kept.",
            ),
            ("INDEX", "The value selects what the message is about."),
        ],
        Role::ResponseClass => &[
            ("SUCCESS", "The command was done."),
            ("MISC_WARNING", "It was done, with a warning."),
            (
                "DATA_ENTRY_WARNING",
                "It was done, with a warning on what was sent.",
            ),
            ("DATA_ENTRY_ERROR", "What was sent was not taken."),
            ("MODE_ERROR", "The device's mode does not allow it."),
            ("PROCESS_ERROR", "The process does not allow it."),
            ("MISC_ERROR", "It was not done, for another reason."),
        ],
        Role::Class => &[],
    }
}

/// Which words may stand at a place.
pub(crate) fn role_at(place: Place) -> Option<Role> {
    match place {
        Place::Value(Keyword::Type) => Some(Role::Type),
        Place::Value(Keyword::Handling) => Some(Role::Handling),
        Place::Value(Keyword::Validity) => Some(Role::Validity),
        Place::Value(Keyword::Operation) => Some(Role::Operation),
        Place::Value(Keyword::Class) => Some(Role::Class),
        Place::Qualifier(Keyword::Items) => Some(Role::EntryQualifier),
        Place::Qualifier(_) => Some(Role::DataQualifier),
        Place::ResponseClass => Some(Role::ResponseClass),
        _ => None,
    }
}

/// What a word means at a place.
pub(crate) fn meaning_at(place: Place, word: &str) -> Option<&'static str> {
    let role = role_at(place)?;
    if role == Role::Class {
        return CLASSES.contains(&word).then_some(CLASS_MEANING);
    }
    let (_, meaning) = terms_of(role).iter().find(|(term, _)| *term == word)?;
    Some(*meaning)
}
