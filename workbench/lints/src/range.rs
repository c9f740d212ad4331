//! Numbers from one to another.

use edd_syntax::types::VarType;
use std::fmt;

/// The numbers from `low` to `high`, with both ends.
#[derive(Clone, Copy, Debug, PartialEq, Eq, Hash)]
pub struct Range {
    /// The least one.
    pub low: i64,
    /// The greatest one.
    pub high: i64,
}

impl Range {
    /// What a variable of a type and a size in octets can hold; without a size it has one octet.
    pub(crate) fn of(kind: VarType, size: Option<u32>) -> Range {
        let (signed, unsigned): ((i64, i64), i64) = match size {
            None | Some(1) => ((-0x80, 0x7F), 0xFF),
            Some(2) => ((-0x8000, 0x7FFF), 0xFFFF),
            Some(3) => ((-0x80_0000, 0x7F_FFFF), 0xFF_FFFF),
            Some(_) => ((-0x8000_0000, 0x7FFF_FFFF), 0xFFFF_FFFF),
        };
        let (low, high) = match kind {
            VarType::Integer => signed,
            VarType::UnsignedInteger | VarType::Enumerated | VarType::BitEnumerated => {
                (0, unsigned)
            }
        };
        Range { low, high }
    }

    /// Whether a number is among them.
    pub(crate) fn holds(self, number: i64) -> bool {
        (self.low..=self.high).contains(&number)
    }

    /// Both ends, for sums that do not wrap.
    pub(crate) fn wide(self) -> (i128, i128) {
        (i128::from(self.low), i128::from(self.high))
    }

    /// The greatest less the least.
    pub(crate) fn width(self) -> i64 {
        self.high.saturating_sub(self.low)
    }
}

impl fmt::Display for Range {
    fn fmt(&self, f: &mut fmt::Formatter<'_>) -> fmt::Result {
        let Range { low, high } = self;
        write!(f, "{low} to {high}")
    }
}
