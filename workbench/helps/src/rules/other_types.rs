//! Types that other languages have, or full EDDL.

use crate::near::Nearest;
use std::fmt;

/// The words of the types.
const TYPES: [&str; 4] = [
    "INTEGER",
    "UNSIGNED_INTEGER",
    "ENUMERATED",
    "BIT_ENUMERATED",
];

/// What is said of a type that this profile does not have.
#[derive(Clone, Copy, Debug, PartialEq, Eq)]
pub enum OtherType {
    /// This type may be meant.
    Meant(&'static str),
    /// No variable holds a text.
    Text,
    /// No variable holds a date or a time.
    Time,
    /// Nothing is known of it.
    Unknown,
}

impl OtherType {
    /// What is said of the word of a type.
    pub(super) fn of(word: &str) -> OtherType {
        match word {
            "SIGNED_INTEGER" | "SIGNED" | "INT" | "LONG" | "SHORT" | "INT8" | "INT16" | "INT32" => {
                OtherType::Meant("INTEGER")
            }
            "UNSIGNED" | "UINT" | "UINT8" | "UINT16" | "UINT32" | "BYTE" | "WORD" | "DWORD"
            | "OCTET" => OtherType::Meant("UNSIGNED_INTEGER"),
            "ENUM" | "ENUMERATION" | "BOOL" | "BOOLEAN" => OtherType::Meant("ENUMERATED"),
            "BIT_ENUM" | "BITFIELD" | "BIT_FIELD" | "BITS" => OtherType::Meant("BIT_ENUMERATED"),
            "ASCII" | "PACKED_ASCII" | "PASSWORD" | "VISIBLE" | "EUC" | "BITSTRING" => {
                OtherType::Text
            }
            "DATE" | "TIME" | "TIME_VALUE" | "DATE_AND_TIME" | "DURATION" => OtherType::Time,
            _ => OtherType::nearest(word),
        }
    }

    /// Whether a word is a type.
    pub(super) fn is_type(word: &str) -> bool {
        TYPES.contains(&word)
    }

    /// The type with this spelling.
    pub(super) fn spelled(word: &str) -> Option<&'static str> {
        TYPES.into_iter().find(|other| *other == word)
    }

    fn nearest(word: &str) -> OtherType {
        let mut nearest = Nearest::to_word(word);
        for other in TYPES {
            nearest.look(other);
        }
        nearest.alone().map_or(OtherType::Unknown, OtherType::Meant)
    }
}

impl fmt::Display for OtherType {
    fn fmt(&self, f: &mut fmt::Formatter<'_>) -> fmt::Result {
        match self {
            OtherType::Meant(word) => write!(f, "{word} may be meant"),
            OtherType::Text => {
                f.write_str("no variable of this profile of EDDL holds a text: leave it out")
            }
            OtherType::Time => f.write_str(
                "this profile of EDDL has no dates and times: take UNSIGNED_INTEGER (4)",
            ),
            OtherType::Unknown => {
                let [first, second, third, last] = TYPES;
                write!(f, "the types are {first}, {second}, {third} and {last}")
            }
        }
    }
}
