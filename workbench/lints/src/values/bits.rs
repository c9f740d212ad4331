//! Bits that are known of a number.

use crate::range::Range;

/// The bits of a number of 64 bits that are known to be 0, and those that are known to be 1.
#[derive(Clone, Copy, Debug, PartialEq, Eq)]
pub(super) struct Bits {
    zeros: u64,
    ones: u64,
}

const SIGN: u64 = 1 << 63;

impl Bits {
    /// What all numbers of a range have in common: the bits before the first one in which its ends
    /// differ.
    pub(super) fn of(range: Range) -> Bits {
        let (low, high) = (range.low.cast_unsigned(), range.high.cast_unsigned());
        let differing = u64::MAX.checked_shr((low ^ high).leading_zeros());
        let common = !differing.unwrap_or(0);
        Bits {
            zeros: !low & common,
            ones: low & common,
        }
    }

    /// The least and the greatest number with these bits.
    pub(super) fn range(self) -> Range {
        let unknown = !(self.zeros | self.ones);
        let low = self.ones | (unknown & SIGN);
        let high = self.ones | (unknown & !SIGN);
        Range {
            low: low.cast_signed(),
            high: high.cast_signed(),
        }
    }

    /// How many of the last bits are known to be 0.
    pub(super) fn last_zeros(self) -> u32 {
        self.zeros.trailing_ones()
    }

    pub(super) fn hold(self, number: i64) -> bool {
        let number = number.cast_unsigned();
        number & self.zeros == 0 && !number & self.ones == 0
    }

    /// Whether a number may have both these bits and others.
    pub(super) fn may_equal(self, other: Bits) -> bool {
        self.zeros & other.ones == 0 && self.ones & other.zeros == 0
    }

    /// What is known where one of two is.
    pub(super) fn join(self, other: Bits) -> Bits {
        Bits {
            zeros: self.zeros & other.zeros,
            ones: self.ones & other.ones,
        }
    }

    /// What is known where both are.
    pub(super) fn meet(self, other: Bits) -> Bits {
        Bits {
            zeros: self.zeros | other.zeros,
            ones: self.ones | other.ones,
        }
    }

    pub(super) fn with_ones(self, mask: i64) -> Bits {
        let ones = self.ones | mask.cast_unsigned();
        Bits { ones, ..self }
    }

    pub(super) fn with_zeros(self, mask: i64) -> Bits {
        let zeros = self.zeros | mask.cast_unsigned();
        Bits { zeros, ..self }
    }

    pub(super) fn and(self, other: Bits) -> Bits {
        Bits {
            zeros: self.zeros | other.zeros,
            ones: self.ones & other.ones,
        }
    }

    pub(super) fn or(self, other: Bits) -> Bits {
        Bits {
            zeros: self.zeros & other.zeros,
            ones: self.ones | other.ones,
        }
    }

    pub(super) fn exclusive_or(self, other: Bits) -> Bits {
        Bits {
            zeros: (self.zeros & other.zeros) | (self.ones & other.ones),
            ones: (self.zeros & other.ones) | (self.ones & other.zeros),
        }
    }

    pub(super) fn complement(self) -> Bits {
        Bits {
            zeros: self.ones,
            ones: self.zeros,
        }
    }
}
