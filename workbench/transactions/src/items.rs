//! The variables of a message, as the source has them.

use crate::TransactionFault;
use crate::transaction::Transaction;
use edd::{Image, MessageField, Record, Side, Values};

/// INFO, among the qualifiers of an item.
const INFO: u8 = 1;
/// INDEX, among the qualifiers of an item.
const INDEX: u8 = 2;

/// How an item that is a variable is written.
#[derive(Clone, Copy, Debug, PartialEq, Eq)]
pub(crate) struct Notation {
    pub(crate) has_mask: bool,
    qualifiers: u8,
}

impl Notation {
    /// Its qualifiers as `show` has them.
    pub(crate) fn qualifiers(self) -> &'static str {
        match (self.qualifiers & INFO != 0, self.qualifiers & INDEX != 0) {
            (true, true) => "(INFO INDEX)",
            (true, false) => "(INFO)",
            (false, true) => "(INDEX)",
            (false, false) => "",
        }
    }
}

/// A message: how its octets are divided, and the notations of its variables, one for each part.
#[derive(Clone, Debug, PartialEq, Eq)]
pub(crate) struct Layout {
    pub(crate) fields: Vec<MessageField>,
    pub(crate) notations: Vec<Notation>,
}

impl Layout {
    /// The layout of a transaction's request or reply.
    pub(crate) fn of_message(
        image: &Image,
        values: &Values,
        transaction: Transaction,
        side: Side,
    ) -> Result<Layout, TransactionFault> {
        let fields = image.message_fields(transaction.message(side), values);
        let fields = fields.map_err(|fault| TransactionFault::of_message(side, fault))?;
        let items = transaction.items(image, values, side);
        let items = items.map_err(|fault| TransactionFault::of_message(side, fault.into()))?;
        let notations = items.iter().filter_map(|item| match *item {
            Record::DataVar { mask, quals, .. } => Some(Notation {
                has_mask: mask != 0,
                qualifiers: quals,
            }),
            _ => None,
        });
        Ok(Layout {
            fields,
            notations: notations.collect(),
        })
    }

    /// How many octets the message has.
    pub(crate) fn length(&self) -> usize {
        self.fields.iter().map(|field| field.width).sum()
    }
}
