//! Where variables are used: in messages of commands, in menus, in expressions and methods.

use crate::expressions::calls::target_of_argument;
use crate::expressions::stores::without_parentheses;
use crate::instrument::variable_of;
use crate::lists::values_of;
use crate::menus::{entries_of, item_shown};
use crate::visit::{Visitor, visit_item};
use edd_instructions::Sort;
use edd_syntax::expr::Expr;
use edd_syntax::item::{Attribute, DataItem, Item, ItemKind, TransactionPart};
use edd_syntax::numbers::ItemNo;
use edd_syntax::operators::{Builtin, Comparison, RequestKind};
use edd_syntax::reference::Target;
use edd_syntax::stmt::Stmt;
use edd_syntax::types::Operation;

/// Some of the variables of a description, by their numbers.
#[derive(Default)]
pub(crate) struct Variables(Vec<bool>);

impl Variables {
    pub(crate) fn insert(&mut self, variable: u16) {
        let place = usize::from(variable);
        if self.0.len() <= place {
            self.0.resize(place.saturating_add(1), false);
        }
        if let Some(is_there) = self.0.get_mut(place) {
            *is_there = true;
        }
    }

    pub(crate) fn extend(&mut self, variables: impl IntoIterator<Item = u16>) {
        for variable in variables {
            self.insert(variable);
        }
    }

    /// Whether the variable of a number is one of them.
    pub(crate) fn contains(&self, variable: u16) -> bool {
        self.0.get(usize::from(variable)).copied() == Some(true)
    }
}

/// The variables of a description by what uses them.
#[derive(Default)]
pub(crate) struct Usage {
    /// In a REQUEST.
    pub(crate) requested: Variables,
    /// In a REPLY.
    pub(crate) replied: Variables,
    /// In a REPLY from which they are set: not for INFO.
    pub(crate) received: Variables,
    /// In such a REPLY of a command that reads.
    pub(crate) read: Variables,
    /// Entries of menus by which they may be set.
    pub(crate) offered: Variables,
    /// Entries of menus.
    pub(crate) shown: Variables,
    /// Set by methods.
    pub(crate) set: Variables,
    /// Set by methods that are always valid.
    pub(crate) freely_set: Variables,
    /// In an expression, an array or a collection.
    pub(crate) mentioned: Variables,
    pub(crate) has_read_command: bool,
    pub(crate) has_write_command: bool,
    /// Whether the item that is looked at has no VALIDITY.
    is_valid: bool,
}

/// The operation of a command.
pub(crate) fn operation_of(command: &Item<Target>) -> Option<Operation> {
    let mut attributes = command.attributes.iter();
    attributes.find_map(|attribute| match attribute {
        Attribute::Operation(_, operation) => Some(*operation),
        _ => None,
    })
}

/// Whether an item has a VALIDITY.
pub(crate) fn has_validity(item: &Item<Target>) -> bool {
    let mut attributes = item.attributes.iter();
    attributes.any(|one| matches!(one, Attribute::Validity(..)))
}

/// The variable of an item of a message.
pub(crate) fn carried(item: &DataItem<Target>) -> Option<u16> {
    match item {
        DataItem::Variable { variable, .. } => variable_of(*variable),
        DataItem::Constant { .. } => None,
    }
}

impl Usage {
    /// The uses in items.
    pub(crate) fn of(items: &[Item<Target>]) -> Usage {
        let mut usage = Usage::default();
        for item in items {
            usage.is_valid = !has_validity(item);
            visit_item(item, &mut usage);
            for attribute in &item.attributes {
                usage.add_attribute(attribute);
            }
            match item.sort {
                ItemKind::Command => usage.add_command(item),
                ItemKind::Menu => usage.add_menu(item),
                _ => {}
            }
        }
        usage
    }

    fn add_attribute(&mut self, attribute: &Attribute<Target>) {
        match attribute {
            Attribute::Members(_, members) => {
                let members = members.iter().filter_map(|member| variable_of(member.item));
                self.mentioned.extend(members);
            }
            Attribute::Elements(_, elements) => {
                let elements = elements.iter().filter_map(|one| variable_of(one.variable));
                self.mentioned.extend(elements);
            }
            _ => {}
        }
    }

    fn add_messages(&mut self, parts: &[TransactionPart<Target>], is_read: bool) {
        for part in parts {
            match part {
                TransactionPart::Request(_, items) => {
                    let items = values_of(items);
                    let items = items.iter().filter_map(|listed| carried(listed.value));
                    self.requested.extend(items);
                }
                TransactionPart::Reply(_, items) => {
                    for listed in values_of(items) {
                        self.add_received(listed.value, is_read);
                    }
                }
            }
        }
    }

    // An item for INFO sets nothing.
    fn add_received(&mut self, item: &DataItem<Target>, is_read: bool) {
        let DataItem::Variable { qualifiers, .. } = item else {
            return;
        };
        let variable = carried(item);
        self.replied.extend(variable);
        if !qualifiers.info {
            self.received.extend(variable);
            self.read.extend(variable.filter(|_| is_read));
        }
    }

    fn add_command(&mut self, command: &Item<Target>) {
        let operation = operation_of(command);
        for attribute in &command.attributes {
            if let Attribute::Transaction { parts, .. } = attribute {
                self.add_messages(parts, operation == Some(Operation::Read));
            }
        }
        match operation {
            Some(Operation::Read) => self.has_read_command = true,
            Some(Operation::Write) => self.has_write_command = true,
            _ => {}
        }
    }

    fn add_menu(&mut self, menu: &Item<Target>) {
        for listed in entries_of(menu) {
            if let Some((ItemNo::Variable(variable), qualifiers)) = item_shown(listed.value) {
                self.shown.insert(variable.0);
                if !qualifiers.read_only && !qualifiers.hidden {
                    self.offered.insert(variable.0);
                }
            }
        }
    }

    fn add_set(&mut self, target: Option<Target>) {
        let variable = target.and_then(variable_of);
        self.set.extend(variable);
        if self.is_valid {
            self.freely_set.extend(variable);
        }
    }
}

impl<'t> Visitor<'t> for Usage {
    // A comparison of which nothing is used has a warning of its own, and is meant to set what it compares.
    fn statement(&mut self, s: &'t Stmt<Target>) {
        if let Stmt::Evaluate(e) = s
            && let Expr::Compare(Comparison::Equal, first, _) = without_parentheses(e)
            && let Expr::Reference(target) = **first
        {
            self.set.extend(variable_of(target));
        }
    }

    fn expression(&mut self, e: &'t Expr<Target>, _: Sort) {
        match e {
            Expr::Reference(target) => self.mentioned.extend(variable_of(*target)),
            Expr::Assign(to, _) | Expr::CompoundAssign(_, to, _) | Expr::Increment(_, to) => {
                self.mentioned.extend(variable_of(*to));
                self.add_set(Some(*to));
            }
            Expr::Call {
                function: Target::Function(function),
                arguments,
                ..
            } => match function {
                Builtin::Iassign | Builtin::Lassign => {
                    self.add_set(target_of_argument(arguments, 0));
                }
                Builtin::Ask(RequestKind::GetDevVarValue) => {
                    self.add_set(target_of_argument(arguments, 1));
                }
                _ => {}
            },
            _ => {}
        }
    }
}
