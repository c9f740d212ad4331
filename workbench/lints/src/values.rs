//! What is known of values without running anything: an interval and the bits that are known.
//!
//! The domain is a lattice. `join` holds whatever one of two values may be, and each operator of
//! the language has a transfer that holds whatever it gives. Where an operator may wrap or trap,
//! nothing is known of what it gives but its width.

mod bits;
pub(crate) mod environment;
pub(crate) mod evaluation;

use crate::range::Range;
use bits::Bits;
use edd_arithmetic::{holds, operate};
use edd_instructions::Sort;
use edd_syntax::operators::{Comparison, Operator, UnaryOperator};

/// What a value may be: a number of the range with these bits, and not the one that is left out.
#[derive(Clone, Copy, Debug, PartialEq, Eq)]
pub(crate) struct Values {
    pub(crate) range: Range,
    bits: Bits,
    hole: Option<i64>,
}

/// The numbers with which a unit computes.
fn width(sort: Sort) -> Range {
    match sort {
        Sort::Attribute => Range {
            low: i64::MIN,
            high: i64::MAX,
        },
        Sort::Method => Range {
            low: i64::from(i32::MIN),
            high: i64::from(i32::MAX),
        },
    }
}

impl Values {
    /// Any number of a width.
    pub(crate) fn any(sort: Sort) -> Values {
        Values::within(width(sort))
    }

    /// The numbers of a range.
    pub(crate) fn within(range: Range) -> Values {
        Values {
            range,
            bits: Bits::of(range),
            hole: None,
        }
    }

    /// One number.
    pub(crate) fn exactly(number: i64) -> Values {
        Values::within(Range {
            low: number,
            high: number,
        })
    }

    fn truth_value(truth: Option<bool>) -> Values {
        match truth {
            Some(truth) => Values::exactly(i64::from(truth)),
            None => Values::within(Range { low: 0, high: 1 }),
        }
    }

    // The same where so many of its last bits are 0.
    fn with_last_zeros(self, count: u32) -> Values {
        let mask = !u64::MAX.checked_shl(count).unwrap_or(0);
        let bits = self.bits.with_zeros(mask.cast_signed());
        Values { bits, ..self }.reduced().unwrap_or(self)
    }

    // The range of wide numbers, or any number where the width does not hold them.
    fn between(low: i128, high: i128, sort: Sort) -> Values {
        let width = width(sort);
        match (i64::try_from(low), i64::try_from(high)) {
            (Ok(low), Ok(high)) if width.holds(low) && width.holds(high) => {
                Values::within(Range { low, high })
            }
            _ => Values::any(sort),
        }
    }

    // Bits of a width, with the range that they leave.
    fn of_bits(bits: Bits, sort: Sort) -> Values {
        let mut values = Values::any(sort);
        values.bits = bits;
        values.reduced().unwrap_or(Values::any(sort))
    }

    // The same with a range and bits that agree; nothing where no number is left.
    fn reduced(self) -> Option<Values> {
        let by_bits = self.bits.range();
        let mut low = self.range.low.max(by_bits.low);
        let mut high = self.range.high.min(by_bits.high);
        if self.hole == Some(low) {
            low = low.saturating_add(1);
        }
        if self.hole == Some(high) {
            high = high.saturating_sub(1);
        }
        let range = Range { low, high };
        (low <= high).then(|| Values {
            range,
            bits: self.bits.meet(Bits::of(range)),
            hole: self.hole.filter(|hole| range.holds(*hole)),
        })
    }

    /// The number that it is, if it is one.
    pub(crate) fn number(self) -> Option<i64> {
        (self.range.low == self.range.high).then_some(self.range.low)
    }

    /// Whether it may be a number.
    pub(crate) fn holds(self, number: i64) -> bool {
        self.range.holds(number) && self.bits.hold(number) && self.hole != Some(number)
    }

    /// Whether it is true, where that is known.
    pub(crate) fn truth(self) -> Option<bool> {
        match self.number() {
            Some(0) => Some(false),
            _ if !self.holds(0) => Some(true),
            _ => None,
        }
    }

    /// What one of two values may be.
    pub(crate) fn join(self, other: Values) -> Values {
        Values {
            range: Range {
                low: self.range.low.min(other.range.low),
                high: self.range.high.max(other.range.high),
            },
            bits: self.bits.join(other.bits),
            hole: self.hole.filter(|hole| !other.holds(*hole)),
        }
    }

    /// What is left where it is of a range; nothing where that can't be.
    pub(crate) fn meet(self, range: Range) -> Option<Values> {
        Values {
            range: Range {
                low: self.range.low.max(range.low),
                high: self.range.high.min(range.high),
            },
            ..self
        }
        .reduced()
    }

    /// What is left where a comparison with a number holds; nothing where that can't be.
    pub(crate) fn compared(self, comparison: Comparison, number: i64) -> Option<Values> {
        let Range { mut low, mut high } = self.range;
        match comparison {
            Comparison::Equal => return self.holds(number).then(|| Values::exactly(number)),
            Comparison::NotEqual => {
                let hole = Some(number);
                return Values { hole, ..self }.reduced();
            }
            Comparison::Less => high = high.min(number.checked_sub(1)?),
            Comparison::LessOrEqual => high = high.min(number),
            Comparison::Greater => low = low.max(number.checked_add(1)?),
            Comparison::GreaterOrEqual => low = low.max(number),
        }
        self.meet(Range { low, high })
    }

    /// What is left where some of these bits are set, or none; nothing where that can't be.
    pub(crate) fn masked(self, mask: i64, are_set: bool) -> Option<Values> {
        let bits = match (are_set, mask.count_ones()) {
            (true, 1) => self.bits.with_ones(mask),
            (true, _) => self.bits,
            (false, _) => self.bits.with_zeros(mask),
        };
        Values { bits, ..self }.reduced()
    }

    /// Whether a comparison with another value holds, where that is known.
    pub(crate) fn compare(self, comparison: Comparison, other: Values) -> Option<bool> {
        let (a, b) = (self.range, other.range);
        let may_be_equal = match (self.number(), other.number()) {
            (Some(number), _) => other.holds(number),
            (_, Some(number)) => self.holds(number),
            _ => self.bits.may_equal(other.bits) && a.low <= b.high && b.low <= a.high,
        };
        let are_equal = match (self.number(), other.number()) {
            (Some(one), Some(two)) => one == two,
            _ => false,
        };
        match comparison {
            Comparison::Equal if are_equal => Some(true),
            Comparison::Equal => (!may_be_equal).then_some(false),
            Comparison::NotEqual if are_equal => Some(false),
            Comparison::NotEqual => (!may_be_equal).then_some(true),
            ordered => {
                // An order is settled where it holds, or fails, between all ends.
                let (one, two) = (holds(ordered, a.low, b.high), holds(ordered, a.high, b.low));
                (one == two && are_apart(ordered, a, b)).then_some(one)
            }
        }
    }

    /// What an operator gives.
    pub(crate) fn binary(self, operator: Operator, other: Values, sort: Sort) -> Values {
        if let (Some(a), Some(b)) = (self.number(), other.number()) {
            let known = operate(sort, operator, a, b).map(Values::exactly);
            return known.unwrap_or(Values::any(sort));
        }
        let (a, b) = (self.range.wide(), other.range.wide());
        match operator {
            Operator::Add => Values::between(sum(a.0, b.0), sum(a.1, b.1), sort),
            Operator::Subtract => Values::between(less(a.0, b.1), less(a.1, b.0), sort),
            Operator::Multiply => {
                let zeros = self
                    .bits
                    .last_zeros()
                    .saturating_add(other.bits.last_zeros());
                Values::corners(a, b, i128::saturating_mul, sort).with_last_zeros(zeros)
            }
            Operator::Divide => self.divided(other, sort),
            Operator::Remainder => self.remainder(other, sort),
            Operator::ShiftLeft | Operator::ShiftRight => self.shifted(operator, other, sort),
            Operator::And => Values::of_bits(self.bits.and(other.bits), sort),
            Operator::Or => Values::of_bits(self.bits.or(other.bits), sort),
            Operator::Xor => Values::of_bits(self.bits.exclusive_or(other.bits), sort),
        }
    }

    fn corners(
        a: (i128, i128),
        b: (i128, i128),
        apply: impl Fn(i128, i128) -> i128,
        sort: Sort,
    ) -> Values {
        let all = [
            apply(a.0, b.0),
            apply(a.0, b.1),
            apply(a.1, b.0),
            apply(a.1, b.1),
        ];
        let low = all.iter().copied().fold(i128::MAX, i128::min);
        let high = all.iter().copied().fold(i128::MIN, i128::max);
        Values::between(low, high, sort)
    }

    // A division by what may be 0 traps there, so that what it gives is no greater than what is
    // divided.
    fn divided(self, other: Values, sort: Sort) -> Values {
        let (a, b) = (self.range.wide(), other.range.wide());
        if b.0 <= 0 && 0 <= b.1 {
            let most = a.0.saturating_abs().max(a.1.saturating_abs());
            return Values::between(most.saturating_neg(), most, sort);
        }
        Values::corners(a, b, |a, b| a.checked_div(b).unwrap_or(0), sort)
    }

    fn remainder(self, other: Values, sort: Sort) -> Values {
        let (a, b) = (self.range.wide(), other.range.wide());
        let divisor = b.0.saturating_abs().max(b.1.saturating_abs());
        let most = divisor.saturating_sub(1).max(0);
        let low = if a.0 < 0 {
            most.saturating_neg().max(a.0)
        } else {
            0
        };
        let high = if 0 < a.1 { most.min(a.1) } else { 0 };
        Values::between(low, high, sort)
    }

    fn shifted(self, operator: Operator, other: Values, sort: Sort) -> Values {
        let count = other.number().and_then(|count| u32::try_from(count).ok());
        let Some(factor) = count.and_then(|count| 1i128.checked_shl(count)) else {
            return Values::any(sort);
        };
        let (low, high) = self.range.wide();
        match operator {
            Operator::ShiftLeft if count < Some(32) => {
                let (low, high) = (low.saturating_mul(factor), high.saturating_mul(factor));
                Values::between(low, high, sort).with_last_zeros(count.unwrap_or(0))
            }
            Operator::ShiftRight if count < Some(64) => {
                Values::between(low.div_euclid(factor), high.div_euclid(factor), sort)
            }
            _ => Values::any(sort),
        }
    }

    /// What an operator before its operand gives.
    pub(crate) fn unary(self, operator: UnaryOperator, sort: Sort) -> Values {
        let (low, high) = self.range.wide();
        match operator {
            UnaryOperator::Plus => self,
            UnaryOperator::Minus => {
                Values::between(high.saturating_neg(), low.saturating_neg(), sort)
            }
            UnaryOperator::Not => Values::truth_value(self.truth().map(|truth| !truth)),
            UnaryOperator::Complement => Values {
                hole: None,
                bits: self.bits.complement(),
                ..Values::between(less(-1, high), less(-1, low), sort)
            },
        }
    }

    /// What a comparison gives.
    pub(crate) fn comparison(self, comparison: Comparison, other: Values) -> Values {
        Values::truth_value(self.compare(comparison, other))
    }
}

fn sum(a: i128, b: i128) -> i128 {
    a.saturating_add(b)
}

fn less(a: i128, b: i128) -> i128 {
    a.saturating_sub(b)
}

// Whether an order of two ranges is the same for all of their numbers.
fn are_apart(comparison: Comparison, a: Range, b: Range) -> bool {
    match comparison {
        Comparison::Less | Comparison::GreaterOrEqual => a.high < b.low || b.high <= a.low,
        _ => a.high <= b.low || b.high < a.low,
    }
}

#[cfg(test)]
mod tests;
