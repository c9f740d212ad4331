//! The expressions of attributes, as a maker would write them.

use edd_syntax::operators::{Comparison, Operator};
use std::borrow::Cow;

/// An expression, as text. A tree would be too deep to drop for some valid code.
#[derive(Clone, Debug)]
pub(crate) struct Expression {
    pub(crate) text: String,
    /// Its value, if it is a constant.
    pub(crate) constant: Option<i64>,
    /// Whether it needs no parentheses beside an operator.
    is_operand: bool,
}

impl Expression {
    pub(crate) fn number(number: i64) -> Expression {
        Expression {
            text: number.to_string(),
            constant: Some(number),
            is_operand: true,
        }
    }

    /// An expression that needs no parentheses, as the name of a variable.
    pub(crate) fn operand(text: impl Into<String>) -> Expression {
        Expression {
            text: text.into(),
            constant: None,
            is_operand: true,
        }
    }

    fn compound(text: String) -> Expression {
        Expression {
            text,
            constant: None,
            is_operand: false,
        }
    }

    /// A unary operator and its operand.
    fn signed(sign: char, of: &Expression) -> Expression {
        Expression::operand(format!("{sign}{}", of.as_operand()))
    }

    pub(crate) fn not(of: &Expression) -> Expression {
        Expression::signed('!', of)
    }

    /// The negation; of a constant it is a constant.
    pub(crate) fn negated(of: &Expression) -> Expression {
        let constant = of.constant.and_then(i64::checked_neg);
        constant.map_or_else(|| Expression::signed('-', of), Expression::number)
    }

    /// The complement; of a constant it is a constant.
    pub(crate) fn complement(of: &Expression) -> Expression {
        let constant = of.constant.map(|constant| !constant);
        constant.map_or_else(|| Expression::signed('~', of), Expression::number)
    }

    /// An operator and its operands. Constants are folded, except where the value would wrap.
    pub(crate) fn operation(
        operator: Operator,
        left: &Expression,
        right: &Expression,
    ) -> Expression {
        let numbers = left.constant.zip(right.constant);
        let constant = numbers.and_then(|(left, right)| value_of(operator, left, right));
        constant.map_or_else(
            || Expression::infix(sign_of(operator), left, right),
            Expression::number,
        )
    }

    pub(crate) fn comparison(of: Comparison, left: &Expression, right: &Expression) -> Expression {
        let sign = match of {
            Comparison::Equal => "==",
            Comparison::NotEqual => "!=",
            Comparison::Less => "<",
            Comparison::LessOrEqual => "<=",
            Comparison::Greater => ">",
            Comparison::GreaterOrEqual => ">=",
        };
        Expression::infix(sign, left, right)
    }

    /// A binary operator and its operands.
    pub(crate) fn infix(sign: &str, left: &Expression, right: &Expression) -> Expression {
        let (left, right) = (left.as_operand(), right.as_operand());
        Expression::compound(format!("{left} {sign} {right}"))
    }

    /// `test ? first : second`
    pub(crate) fn choice(test: &Expression, first: &Expression, second: &Expression) -> Expression {
        let (test, first, second) = (test.as_operand(), first.as_operand(), second.as_operand());
        Expression::compound(format!("{test} ? {first} : {second}"))
    }

    /// An operand of `&&` or `||` without the two negations by which the code makes it 0 or 1.
    pub(crate) fn without_truth(self) -> Expression {
        match self.text.strip_prefix("!!") {
            Some(text) => Expression::operand(text),
            None => self,
        }
    }

    /// Its text as the operand of an operator.
    pub(crate) fn as_operand(&self) -> Cow<'_, str> {
        if self.is_operand {
            Cow::Borrowed(&self.text)
        } else {
            Cow::Owned(format!("({})", self.text))
        }
    }
}

fn sign_of(operator: Operator) -> &'static str {
    match operator {
        Operator::Add => "+",
        Operator::Subtract => "-",
        Operator::Multiply => "*",
        Operator::Divide => "/",
        Operator::Remainder => "%",
        Operator::ShiftLeft => "<<",
        Operator::ShiftRight => ">>",
        Operator::And => "&",
        Operator::Or => "|",
        Operator::Xor => "^",
    }
}

fn value_of(operator: Operator, left: i64, right: i64) -> Option<i64> {
    match operator {
        Operator::Add => left.checked_add(right),
        Operator::Subtract => left.checked_sub(right),
        Operator::Multiply => left.checked_mul(right),
        Operator::Divide => left.checked_div(right),
        Operator::Remainder => left.checked_rem(right),
        Operator::And => Some(left & right),
        Operator::Or => Some(left | right),
        Operator::Xor => Some(left ^ right),
        Operator::ShiftLeft | Operator::ShiftRight => None,
    }
}
