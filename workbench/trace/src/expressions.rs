//! The effects of expressions, in the order of their code. Each sign of an expression is passed, so that
//! none is taken for another one.

use crate::cursor::{TokenIndex, index_of};
use crate::effect::Effect;
use crate::walk::BodyWalk;
use edd_syntax::expr::{Argument, Expr};
use edd_syntax::operators::{IncrementOperator, Operator, UnaryOperator};
use edd_syntax::reference::Target;
use edd_syntax::symbols::Symbol;

fn unary_sign(operator: UnaryOperator) -> Symbol {
    match operator {
        UnaryOperator::Plus => Symbol::Operator(Operator::Add),
        UnaryOperator::Minus => Symbol::Operator(Operator::Subtract),
        UnaryOperator::Not => Symbol::Exclamation,
        UnaryOperator::Complement => Symbol::Tilde,
    }
}

fn increment_sign(operator: IncrementOperator) -> Symbol {
    match operator {
        IncrementOperator::PreIncrement | IncrementOperator::PostIncrement => Symbol::Increment,
        IncrementOperator::PreDecrement | IncrementOperator::PostDecrement => Symbol::Decrement,
    }
}

impl BodyWalk<'_> {
    pub(crate) fn expression(&mut self, e: &Expr<Target>) {
        match e {
            Expr::Literal(_) | Expr::Decimal { .. } | Expr::Reference(_) => {}
            Expr::Indexed(array, index) => {
                let token = self.cursor.pass_sign(Symbol::OpenBracket);
                self.expression(index);
                self.note(Effect::of_index(*array), token);
            }
            Expr::Parentheses(inner) => self.expression(inner),
            Expr::Unary(operator, inner) => {
                self.cursor.pass_sign(unary_sign(*operator));
                self.expression(inner);
            }
            Expr::Binary(operator, left, right) => {
                let token = self.pair(left, Symbol::Operator(*operator), right);
                self.note(Effect::of_operator(*operator), token);
            }
            Expr::Compare(by, left, right) => {
                self.pair(left, Symbol::Comparison(*by), right);
            }
            Expr::LogicalAnd(left, right) => {
                self.pair(left, Symbol::LogicalAnd, right);
            }
            Expr::LogicalOr(left, right) => {
                self.pair(left, Symbol::LogicalOr, right);
            }
            Expr::Conditional(test, first, second) => {
                self.pair(test, Symbol::Question, first);
                self.cursor.pass_sign(Symbol::Colon);
                self.expression(second);
            }
            Expr::Assign(..) | Expr::CompoundAssign(..) | Expr::Increment(..) => self.store(e),
            Expr::Call {
                at,
                function,
                arguments,
            } => self.call(index_of(*at), *function, arguments),
        }
    }

    /// Walks over two operands, and returns the sign between them.
    fn pair(&mut self, left: &Expr<Target>, sign: Symbol, right: &Expr<Target>) -> TokenIndex {
        self.expression(left);
        let token = self.cursor.pass_sign(sign);
        self.expression(right);
        token
    }

    fn store(&mut self, e: &Expr<Target>) {
        match e {
            Expr::Assign(to, value) => {
                let token = self.cursor.pass_sign(Symbol::Equals);
                self.expression(value);
                self.note(Effect::of_store(*to), token);
            }
            Expr::CompoundAssign(operator, to, value) => {
                let token = self.cursor.pass_sign(Symbol::CompoundAssign(*operator));
                self.expression(value);
                self.note(Effect::of_operator(*operator), token);
                self.note(Effect::of_store(*to), token);
            }
            Expr::Increment(operator, to) => {
                let token = self.cursor.pass_sign(increment_sign(*operator));
                self.note(Effect::of_store(*to), token);
            }
            _ => {}
        }
    }

    fn call(&mut self, name: TokenIndex, function: Target, arguments: &[Argument<Target>]) {
        self.cursor.pass(name);
        for argument in arguments {
            if let Argument::Value(e) = argument {
                self.expression(e);
            }
        }
        if let Target::Function(called) = function {
            self.note(Effect::of_call(called, first_reference(arguments)), name);
        }
    }

    pub(crate) fn optional_expression(&mut self, e: Option<&Expr<Target>>) {
        if let Some(e) = e {
            self.expression(e);
        }
    }
}

fn first_reference(arguments: &[Argument<Target>]) -> Option<Target> {
    match arguments.first() {
        Some(Argument::Value(Expr::Reference(to))) => Some(*to),
        _ => None,
    }
}
