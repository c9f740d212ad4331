//! The nodes of an item, in the order of the source.

use edd_instructions::Sort;
use edd_syntax::cond::{Arm, Cond};
use edd_syntax::expr::{Argument, Expr};
use edd_syntax::item::{
    Attribute, DataItem, Enumerator, Item, MenuEntry, TransactionPart, TypePart,
};
use edd_syntax::reference::Target;
use edd_syntax::stmt::{Part, Stmt};
use edd_syntax::text::Text;
use edd_syntax::types::Handling;
use std::slice;

/// What looks at nodes. A node comes before those that are in it.
pub(crate) trait Visitor<'t> {
    fn conditional<V>(&mut self, _conditional: &'t Cond<Target, V>) {}
    /// An expression of an attribute or of a method.
    fn expression(&mut self, _e: &'t Expr<Target>, _sort: Sort) {}
    fn statement(&mut self, _s: &'t Stmt<Target>) {}
    /// A local that is declared with a value, which is visited as well.
    fn declared(&mut self, _place: Target, _value: &'t Expr<Target>) {}
}

/// A value of a conditional.
pub(crate) trait Value {
    /// The expression that it is. Most values are none.
    fn expression(&self) -> Option<&Expr<Target>> {
        None
    }

    /// The entry of a menu that it is.
    fn entry(&self) -> Option<&MenuEntry<Target>> {
        None
    }

    /// The text that it is.
    fn text(&self) -> Option<&Text> {
        None
    }
}

impl Value for Text {
    fn text(&self) -> Option<&Text> {
        Some(self)
    }
}

impl Value for Handling {}
impl Value for bool {}
impl Value for Enumerator {}
impl Value for DataItem<Target> {}

impl Value for MenuEntry<Target> {
    fn entry(&self) -> Option<&MenuEntry<Target>> {
        Some(self)
    }
}

impl Value for Expr<Target> {
    fn expression(&self) -> Option<&Expr<Target>> {
        Some(self)
    }
}

/// What takes the conditionals of an attribute, of one value or a list.
pub(crate) trait Conditionals<'t> {
    fn take<V: Value>(&mut self, all: &'t [Cond<Target, V>]);
}

/// Hands out the conditionals of an attribute, in the order of the source.
pub(crate) fn conditionals_of<'t>(
    attribute: &'t Attribute<Target>,
    taker: &mut impl Conditionals<'t>,
) {
    match attribute {
        Attribute::OneText(_, _, text) => taker.take(slice::from_ref(text)),
        Attribute::Handling(_, handling) => taker.take(slice::from_ref(handling)),
        Attribute::Validity(_, validity) => taker.take(slice::from_ref(validity)),
        Attribute::TypeOf { parts, .. } => {
            for part in parts {
                match part {
                    TypePart::OneNumber { value, .. } => taker.take(slice::from_ref(value)),
                    TypePart::OneFormat { format, .. } => taker.take(slice::from_ref(format)),
                    TypePart::Element(element) => taker.take(slice::from_ref(element)),
                }
            }
        }
        Attribute::Transaction { parts, .. } => {
            for part in parts {
                let (TransactionPart::Request(_, items) | TransactionPart::Reply(_, items)) = part;
                taker.take(items);
            }
        }
        Attribute::Items(_, entries) => taker.take(entries),
        Attribute::Class(..)
        | Attribute::Number(..)
        | Attribute::Operation(..)
        | Attribute::ResponseCodes(..)
        | Attribute::Members(..)
        | Attribute::Definition(..)
        | Attribute::Elements(..) => {}
    }
}

/// Visits the conditionals of an item, with all that is in them.
pub(crate) fn visit_conditionals_of<'t>(item: &'t Item<Target>, visitor: &mut impl Visitor<'t>) {
    for attribute in &item.attributes {
        conditionals_of(attribute, &mut Visiting { visitor });
    }
}

/// Visits all nodes of an item.
pub(crate) fn visit_item<'t>(item: &'t Item<Target>, visitor: &mut impl Visitor<'t>) {
    for attribute in &item.attributes {
        conditionals_of(attribute, &mut Visiting { visitor });
        if let Attribute::Definition(_, parts) = attribute {
            visit_parts(parts, visitor);
        }
    }
}

struct Visiting<'v, V> {
    visitor: &'v mut V,
}

impl<'t, W: Visitor<'t>> Conditionals<'t> for Visiting<'_, W> {
    fn take<V: Value>(&mut self, all: &'t [Cond<Target, V>]) {
        visit_conditionals(all, self.visitor);
    }
}

fn visit_conditionals<'t, V: Value>(all: &'t [Cond<Target, V>], visitor: &mut impl Visitor<'t>) {
    for conditional in all {
        visit_conditional(conditional, visitor);
    }
}

/// Visits a conditional and what is in it.
pub(crate) fn visit_conditional<'t, V: Value>(
    conditional: &'t Cond<Target, V>,
    visitor: &mut impl Visitor<'t>,
) {
    visitor.conditional(conditional);
    match conditional {
        Cond::Value(value) => {
            if let Some(e) = value.expression() {
                visit_expression(e, Sort::Attribute, visitor);
            }
        }
        Cond::If {
            condition,
            first,
            otherwise,
        } => {
            visit_expression(condition, Sort::Attribute, visitor);
            visit_conditionals(first, visitor);
            visit_conditionals(otherwise, visitor);
        }
        Cond::Select { on, arms } => {
            visit_expression(on, Sort::Attribute, visitor);
            for arm in arms {
                let (Arm::Case { body, .. } | Arm::Default { body, .. }) = arm;
                visit_conditionals(body, visitor);
            }
        }
    }
}

/// Visits an expression and those in it.
pub(crate) fn visit_expression<'t>(
    e: &'t Expr<Target>,
    sort: Sort,
    visitor: &mut impl Visitor<'t>,
) {
    visitor.expression(e, sort);
    for_children(e, |inner| visit_expression(inner, sort, visitor));
}

/// Takes the expressions right inside of one.
pub(crate) fn for_children<'t>(e: &'t Expr<Target>, mut take: impl FnMut(&'t Expr<Target>)) {
    match e {
        Expr::Literal(_) | Expr::Decimal { .. } | Expr::Reference(_) | Expr::Increment(..) => {}
        Expr::Indexed(_, inner)
        | Expr::Parentheses(inner)
        | Expr::Unary(_, inner)
        | Expr::Assign(_, inner)
        | Expr::CompoundAssign(_, _, inner) => take(inner),
        Expr::Binary(_, first, second)
        | Expr::Compare(_, first, second)
        | Expr::LogicalAnd(first, second)
        | Expr::LogicalOr(first, second) => {
            take(first);
            take(second);
        }
        Expr::Conditional(test, first, second) => {
            take(test);
            take(first);
            take(second);
        }
        Expr::Call { arguments, .. } => {
            for argument in arguments {
                if let Argument::Value(e) = argument {
                    take(e);
                }
            }
        }
    }
}

/// Whether an expression right inside of one is such.
pub(crate) fn has_child<'t>(
    e: &'t Expr<Target>,
    mut is_such: impl FnMut(&'t Expr<Target>) -> bool,
) -> bool {
    let mut has = false;
    for_children(e, |inner| has = has || is_such(inner));
    has
}

/// Visits what is between braces.
pub(crate) fn visit_parts<'t>(parts: &'t [Part<Target>], visitor: &mut impl Visitor<'t>) {
    for part in parts {
        match part {
            Part::Declare(declarators) => {
                for declarator in declarators {
                    if let Some(e) = &declarator.value {
                        visitor.declared(declarator.place, e);
                        visit_expression(e, Sort::Method, visitor);
                    }
                }
            }
            Part::Statement(s) => visit_statement(s, visitor),
            Part::CaseLabel { .. } | Part::DefaultLabel { .. } => {}
        }
    }
}

/// Visits a statement and what is in it.
pub(crate) fn visit_statement<'t>(s: &'t Stmt<Target>, visitor: &mut impl Visitor<'t>) {
    visitor.statement(s);
    let mut expression = |e: &'t Expr<Target>| visit_expression(e, Sort::Method, visitor);
    match s {
        Stmt::Evaluate(e) => expression(e),
        Stmt::Block(parts) => visit_parts(parts, visitor),
        Stmt::If(condition, inner) | Stmt::While(condition, inner) => {
            expression(condition);
            visit_statement(inner, visitor);
        }
        Stmt::IfElse(condition, first, otherwise) => {
            expression(condition);
            visit_statement(first, visitor);
            visit_statement(otherwise, visitor);
        }
        Stmt::Do(body, condition) => {
            visit_statement(body, visitor);
            visit_expression(condition, Sort::Method, visitor);
        }
        Stmt::For {
            initial,
            condition,
            update,
            body,
        } => {
            [initial, condition, update]
                .into_iter()
                .flatten()
                .for_each(expression);
            visit_statement(body, visitor);
        }
        Stmt::Switch(on, parts) => {
            expression(on);
            visit_parts(parts, visitor);
        }
        Stmt::Empty | Stmt::Break { .. } | Stmt::Continue { .. } | Stmt::Return => {}
    }
}

/// The statements right in a block, and the body itself.
pub(crate) fn statements_right_in(body: &Stmt<Target>) -> impl Iterator<Item = &Stmt<Target>> {
    let parts = match body {
        Stmt::Block(parts) => &**parts,
        _ => &[],
    };
    let inner = parts.iter().filter_map(|part| match part {
        Part::Statement(s) => Some(s),
        _ => None,
    });
    inner.chain(slice::from_ref(body))
}
