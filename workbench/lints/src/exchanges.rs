//! What the transactions of a command carry.

use crate::lists::values_of;
use crate::source::{TokenIndex, index};
use crate::usage::carried;
use edd_syntax::cond::Cond;
use edd_syntax::item::{Attribute, DataItem, Item, TransactionPart};
use edd_syntax::reference::Target;

/// Variables by their numbers, sorted, each once.
#[derive(Default)]
pub(crate) struct Carried(Vec<u16>);

impl Carried {
    fn extend(&mut self, numbers: impl Iterator<Item = u16>) {
        self.0.extend(numbers);
        self.0.sort_unstable();
        self.0.dedup();
    }

    pub(crate) fn numbers(&self) -> &[u16] {
        &self.0
    }

    pub(crate) fn contains(&self, variable: u16) -> bool {
        self.0.binary_search(&variable).is_ok()
    }
}

/// What a transaction carries.
pub(crate) struct Exchange {
    pub(crate) at: TokenIndex,
    pub(crate) number: Option<u32>,
    /// The constants that begin the REQUEST and the REPLY, where they begin with one.
    pub(crate) selector: Option<u32>,
    pub(crate) echo: Option<u32>,
    /// The variables of the REQUEST, whatever holds.
    pub(crate) sent: Carried,
    /// Those of the REPLY, whatever holds.
    pub(crate) received: Carried,
    /// Those that the REPLY always sets as a whole.
    pub(crate) set: Carried,
}

// The constant with which a message begins.
fn first_constant(items: &[Cond<Target, DataItem<Target>>]) -> Option<u32> {
    match items.first()? {
        Cond::Value(DataItem::Constant { value, .. }) => Some(*value),
        _ => None,
    }
}

fn variables_of(items: &[Cond<Target, DataItem<Target>>]) -> impl Iterator<Item = u16> {
    values_of(items)
        .into_iter()
        .filter_map(|listed| carried(listed.value))
}

// The variables that a message always sets as a whole.
fn set_by(items: &[Cond<Target, DataItem<Target>>]) -> impl Iterator<Item = u16> {
    items.iter().filter_map(|item| match item {
        Cond::Value(
            one @ DataItem::Variable {
                mask: None,
                qualifiers,
                ..
            },
        ) if !qualifiers.info => carried(one),
        _ => None,
    })
}

impl Exchange {
    /// Whether it has no variables.
    pub(crate) fn is_empty(&self) -> bool {
        self.sent.numbers().is_empty() && self.received.numbers().is_empty()
    }

    fn of(attribute: &Attribute<Target>) -> Option<Exchange> {
        let Attribute::Transaction { at, number, parts } = attribute else {
            return None;
        };
        let mut exchange = Exchange {
            at: index(*at),
            number: *number,
            selector: None,
            echo: None,
            sent: Carried::default(),
            received: Carried::default(),
            set: Carried::default(),
        };
        for part in parts {
            match part {
                TransactionPart::Request(_, items) => {
                    exchange.selector = first_constant(items);
                    exchange.sent.extend(variables_of(items));
                }
                TransactionPart::Reply(_, items) => {
                    exchange.echo = first_constant(items);
                    exchange.received.extend(variables_of(items));
                    exchange.set.extend(set_by(items));
                }
            }
        }
        Some(exchange)
    }
}

/// What the transactions of a command carry, in their order.
pub(crate) fn exchanges_of(command: &Item<Target>) -> Vec<Exchange> {
    command.attributes.iter().filter_map(Exchange::of).collect()
}
