//! Each transfer holds what the core's operators give, for all numbers of small ranges and for those
//! at the ends of the widths.

use super::Values;
use crate::range::Range;
use edd_arithmetic::{apply, holds, operate};
use edd_instructions::Sort;
use edd_syntax::operators::{Comparison, Operator, UnaryOperator};

const OPERATORS: [Operator; 10] = [
    Operator::Add,
    Operator::Subtract,
    Operator::Multiply,
    Operator::Divide,
    Operator::Remainder,
    Operator::ShiftLeft,
    Operator::ShiftRight,
    Operator::And,
    Operator::Or,
    Operator::Xor,
];

const COMPARISONS: [Comparison; 6] = [
    Comparison::Equal,
    Comparison::NotEqual,
    Comparison::Less,
    Comparison::LessOrEqual,
    Comparison::Greater,
    Comparison::GreaterOrEqual,
];

const UNARY: [UnaryOperator; 4] = [
    UnaryOperator::Plus,
    UnaryOperator::Minus,
    UnaryOperator::Not,
    UnaryOperator::Complement,
];

/// Numbers, in their order: small ones, and those at the ends of 32 bits and of an octet.
const NUMBERS: [i64; 19] = [
    -0x8000_0000,
    -0x7FFF_FFFF,
    -129,
    -128,
    -5,
    -2,
    -1,
    0,
    1,
    2,
    3,
    4,
    6,
    31,
    32,
    127,
    255,
    0x7FFF_FFFE,
    0x7FFF_FFFF,
];

/// Each range between two of the numbers, with each of the numbers in it.
fn ranged() -> Vec<(Range, i64)> {
    let mut all = Vec::new();
    for (first, low) in NUMBERS.into_iter().enumerate() {
        for (length, high) in NUMBERS.into_iter().skip(first).enumerate() {
            let inside = NUMBERS
                .into_iter()
                .skip(first)
                .take(length.saturating_add(1));
            all.extend(inside.map(|number| (Range { low, high }, number)));
        }
    }
    all
}

#[test]
fn a_transfer_holds_what_the_operator_gives() {
    for (one, a) in ranged() {
        // Every seventh is enough beside each of the first operands.
        for (two, b) in ranged().into_iter().step_by(7) {
            let (first, second) = (Values::within(one), Values::within(two));
            for sort in [Sort::Attribute, Sort::Method] {
                for operator in OPERATORS {
                    if let Ok(number) = operate(sort, operator, a, b) {
                        let known = first.binary(operator, second, sort);
                        assert!(known.holds(number), "{a} {operator:?} {b}: {known:?}");
                    }
                }
            }
            for comparison in COMPARISONS {
                let truth = holds(comparison, a, b);
                let known = first.compare(comparison, second);
                assert!(
                    known.is_none_or(|known| known == truth),
                    "{a} {comparison:?} {b}"
                );
                let left = first.compared(comparison, b);
                let is_left = left.is_some_and(|left| left.holds(a));
                assert!(!truth || is_left, "{a} {comparison:?} {b}");
            }
            let joined = first.join(second);
            assert!(joined.holds(a) && joined.holds(b));
        }
    }
}

#[test]
fn a_transfer_of_one_operand_holds_what_the_operator_gives() {
    for (range, number) in ranged() {
        for sort in [Sort::Attribute, Sort::Method] {
            for operator in UNARY {
                let known = Values::within(range).unary(operator, sort);
                assert!(
                    known.holds(apply(sort, operator, number)),
                    "{operator:?} {number}"
                );
            }
        }
    }
}

#[test]
fn a_mask_leaves_the_numbers_that_have_its_bits_or_lack_them() {
    for (range, number) in ranged() {
        for mask in NUMBERS {
            let left = Values::within(range).masked(mask, number & mask != 0);
            assert!(
                left.is_some_and(|left| left.holds(number)),
                "{number} & {mask}"
            );
        }
    }
}

#[test]
fn what_is_known_settles_comparisons() {
    let octet = Values::within(Range { low: 0, high: 255 });
    let masked = octet.binary(Operator::And, Values::exactly(4), Sort::Method);
    assert_eq!(
        masked.compare(Comparison::Equal, Values::exactly(1)),
        Some(false)
    );
    assert_eq!(masked.compare(Comparison::Equal, Values::exactly(4)), None);
    let marked = octet.binary(Operator::Or, Values::exactly(1), Sort::Method);
    assert_eq!(marked.truth(), Some(true));
    assert_eq!(
        octet.unary(UnaryOperator::Complement, Sort::Method).truth(),
        Some(true)
    );
    assert_eq!(octet.truth(), None);
    let other = octet
        .compared(Comparison::NotEqual, 7)
        .map(|left| left.holds(7));
    assert_eq!(other, Some(false));
}
