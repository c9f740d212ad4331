//! What expressions give, and what they change.

use super::Values;
use super::environment::{Environment, Storage, storage_of};
use crate::expressions::calls::target_of_argument;
use crate::range::Range;
use crate::visit::for_children;
use edd_syntax::expr::{Argument, Expr};
use edd_syntax::operators::{Builtin, IncrementOperator, Operator};
use edd_syntax::reference::Target;

/// What is told of expressions on the way, with what they give.
pub(crate) trait Observer {
    fn observe(&mut self, _e: &Expr<Target>, _values: Values, _known: &Environment<'_, '_>) {}
}

/// An observer that looks at nothing.
pub(crate) struct Nobody;

impl Observer for Nobody {}

// What a step does with 1.
fn operator_of(step: IncrementOperator) -> Operator {
    match step {
        IncrementOperator::PreIncrement | IncrementOperator::PostIncrement => Operator::Add,
        IncrementOperator::PreDecrement | IncrementOperator::PostDecrement => Operator::Subtract,
    }
}

impl Environment<'_, '_> {
    /// What an expression gives. What it sets is known from then on.
    pub(crate) fn evaluate(&mut self, e: &Expr<Target>, observer: &mut impl Observer) -> Values {
        let values = self.values_of(e, observer);
        observer.observe(e, values, self);
        values
    }

    fn values_of(&mut self, e: &Expr<Target>, observer: &mut impl Observer) -> Values {
        match e {
            Expr::Literal(number) => {
                Values::exactly(edd_arithmetic::wrapped_constant(self.sort, *number))
            }
            Expr::Decimal { .. } => Values::any(self.sort),
            Expr::Reference(target) => match storage_of(*target) {
                Some(storage) => self.get(storage),
                None => Values::any(self.sort),
            },
            Expr::Indexed(array, index) => {
                self.evaluate(index, observer);
                self.element(*array, index)
            }
            Expr::Parentheses(inner) => self.evaluate(inner, observer),
            Expr::Unary(operator, inner) => {
                self.evaluate(inner, observer).unary(*operator, self.sort)
            }
            Expr::Binary(operator, first, second) => {
                let first = self.evaluate(first, observer);
                let second = self.evaluate(second, observer);
                first.binary(*operator, second, self.sort)
            }
            Expr::Compare(comparison, first, second) => {
                let first = self.evaluate(first, observer);
                let second = self.evaluate(second, observer);
                first.comparison(*comparison, second)
            }
            Expr::LogicalAnd(first, second) => self.logical(first, second, true, observer),
            Expr::LogicalOr(first, second) => self.logical(first, second, false, observer),
            Expr::Conditional(test, first, second) => self.choose(test, [first, second], observer),
            Expr::Assign(to, value) => {
                let values = self.evaluate(value, observer);
                self.store(*to, values);
                values
            }
            Expr::CompoundAssign(operator, to, value) => {
                let values = self.evaluate(value, observer);
                self.change(*to, *operator, values)
            }
            Expr::Increment(operator, to) => {
                self.change(*to, operator_of(*operator), Values::exactly(1));
                Values::any(self.sort)
            }
            Expr::Call {
                function,
                arguments,
                ..
            } => self.call(*function, arguments, observer),
        }
    }

    // `test ? first : second`
    fn choose(
        &mut self,
        test: &Expr<Target>,
        [first, second]: [&Expr<Target>; 2],
        observer: &mut impl Observer,
    ) -> Values {
        self.evaluate(test, observer);
        let one = self.evaluate_where(test, true, first, observer);
        let two = self.evaluate_where(test, false, second, observer);
        match (one, two) {
            (Some(one), Some(two)) => one.join(two),
            (one, two) => one.or(two).unwrap_or(Values::any(self.sort)),
        }
    }

    // `&&` or `||`. The second operand is evaluated where the first one is true, or false.
    fn logical(
        &mut self,
        first: &Expr<Target>,
        second: &Expr<Target>,
        goes_on: bool,
        observer: &mut impl Observer,
    ) -> Values {
        let one = self.evaluate(first, observer).truth();
        let two = self.evaluate_where(first, goes_on, second, observer);
        let two = two.and_then(Values::truth);
        let is_settled = |truth| truth == Some(!goes_on);
        if is_settled(one) || (one.is_some() && is_settled(two)) {
            return Values::exactly(i64::from(!goes_on));
        }
        match (one, two) {
            (Some(_), Some(_)) => Values::exactly(i64::from(goes_on)),
            _ => Values::within(Range { low: 0, high: 1 }),
        }
    }

    // What an expression gives where a condition is true, or false; nothing where it never is.
    fn evaluate_where(
        &mut self,
        test: &Expr<Target>,
        truth: bool,
        e: &Expr<Target>,
        observer: &mut impl Observer,
    ) -> Option<Values> {
        let refined = self.clone().refined(test, truth);
        let values = refined.map(|mut refined| refined.evaluate(e, observer));
        self.forget_changes(e);
        values
    }

    /// Notes what is stored.
    pub(crate) fn store(&mut self, to: Target, values: Values) {
        if let Some(storage) = storage_of(to) {
            self.set(storage, values);
        }
    }

    fn change(&mut self, to: Target, operator: Operator, by: Values) -> Values {
        let Some(storage) = storage_of(to) else {
            return Values::any(self.sort);
        };
        let values = self.get(storage).binary(operator, by, self.sort);
        self.set(storage, values);
        values
    }

    fn call(
        &mut self,
        function: Target,
        arguments: &[Argument<Target>],
        observer: &mut impl Observer,
    ) -> Values {
        let mut last = Values::any(self.sort);
        for argument in arguments {
            if let Argument::Value(e) = argument {
                last = self.evaluate(e, observer);
            }
        }
        match function {
            Target::Function(Builtin::Ask(_)) => self.forget_variables(),
            Target::Function(Builtin::Iassign | Builtin::Lassign) => {
                if let Some(to) = target_of_argument(arguments, 0) {
                    self.store(to, last);
                }
                return Values::exactly(0);
            }
            Target::Function(Builtin::IvarValue | Builtin::LvarValue) => return last,
            _ => {}
        }
        Values::any(self.sort)
    }

    /// Forgets all that an expression may change.
    pub(crate) fn forget_changes(&mut self, e: &Expr<Target>) {
        self.forget_change(e);
        for_children(e, |inner| self.forget_changes(inner));
    }

    /// Forgets what an expression may change itself, without those in it.
    pub(crate) fn forget_change(&mut self, e: &Expr<Target>) {
        match e {
            Expr::Assign(to, _) | Expr::CompoundAssign(_, to, _) | Expr::Increment(_, to) => {
                self.forget_target(*to);
            }
            Expr::Call {
                function: Target::Function(function),
                arguments,
                ..
            } => match function {
                Builtin::Ask(_) => self.forget_variables(),
                Builtin::Iassign | Builtin::Lassign => {
                    if let Some(to) = target_of_argument(arguments, 0) {
                        self.forget_target(to);
                    }
                }
                _ => {}
            },
            _ => {}
        }
    }

    /// Forgets what is known of what a reference refers to.
    pub(crate) fn forget_target(&mut self, target: Target) {
        if let Some(storage) = storage_of(target) {
            self.forget(storage);
        }
    }

    /// The values of a local that counts from one number to another.
    pub(crate) fn set_counter(&mut self, counter: Storage, range: Range) {
        self.set(counter, Values::within(range));
    }
}
