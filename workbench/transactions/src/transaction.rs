//! Which transaction is meant.

use crate::TransactionFault;
use edd::{Attr, AttrRef, CmdNo, Image, ItemNo, Kind, Message, ReadFault, Record, Side, Values};

/// A transaction of an image.
#[derive(Clone, Copy, Debug, PartialEq, Eq)]
pub struct Transaction {
    /// Its command.
    pub command: CmdNo,
    /// Its position in the command.
    pub position: u16,
}

impl Transaction {
    /// The transaction of a number, or the first one, of a command that is named by its name or by
    /// its NUMBER under these values. A transaction without a number has the number 0.
    ///
    /// # Errors
    ///
    /// There is no such command, or it has no such transaction.
    pub fn find(
        image: &Image,
        values: &Values,
        command: &str,
        number: Option<i64>,
    ) -> Result<Transaction, TransactionFault> {
        let found = find_command(image, values, command)
            .ok_or_else(|| TransactionFault::NoCommand(command.to_owned()))?;
        let mut positions = positions(image, values, found);
        let transaction = match number {
            None => positions.next(),
            Some(number) => positions.find(|it| it.number(image, values) == Some(number)),
        };
        transaction.ok_or_else(|| TransactionFault::NoTransaction {
            command: command.to_owned(),
            number,
        })
    }

    /// Its request or its reply.
    pub fn message(self, side: Side) -> Message {
        Message {
            command: self.command,
            position: self.position,
            side,
        }
    }

    /// Its number, if it has one under these values.
    pub(crate) fn number(self, image: &Image, values: &Values) -> Option<i64> {
        let attribute = self.attribute(Attr::Transaction);
        let records = image.attribute(attribute, values).ok()?;
        match records.first() {
            None => Some(0),
            Some(Record::Number(number)) => Some(*number),
            Some(_) => None,
        }
    }

    /// What one of its messages carries.
    pub(crate) fn items(
        self,
        image: &Image,
        values: &Values,
        side: Side,
    ) -> Result<Vec<Record>, ReadFault> {
        let attr = match side {
            Side::Request => Attr::Request,
            Side::Reply => Attr::Reply,
        };
        image.attribute(self.attribute(attr), values)
    }

    fn attribute(self, attr: Attr) -> AttrRef {
        AttrRef {
            item: ItemNo::Command(self.command),
            attr,
            sub: self.position,
        }
    }
}

/// The NUMBER of a command, if it has one under these values.
pub(crate) fn command_number(image: &Image, values: &Values, command: CmdNo) -> Option<i64> {
    let attribute = AttrRef {
        item: ItemNo::Command(command),
        attr: Attr::Number,
        sub: 0,
    };
    match image.attribute(attribute, values).ok()?.first() {
        Some(Record::Number(number)) => Some(*number),
        _ => None,
    }
}

fn find_command(image: &Image, values: &Values, named: &str) -> Option<CmdNo> {
    let number = named.parse::<i64>().ok();
    let mut commands = image
        .items_of(Kind::Command)
        .filter_map(|item| match item.number {
            ItemNo::Command(command) => Some((item.name, command)),
            _ => None,
        });
    let found = commands.find(|(name, command)| match number {
        // A name does not begin with a digit.
        Some(number) => command_number(image, values, *command) == Some(number),
        None => *name == named,
    });
    found.map(|(_, command)| command)
}

/// The transactions of a command, up to the first position without one.
fn positions(image: &Image, values: &Values, command: CmdNo) -> impl Iterator<Item = Transaction> {
    let all = (0..=u16::MAX).map(move |position| Transaction { command, position });
    all.take_while(|transaction| {
        let read = image.attribute(transaction.attribute(Attr::Transaction), values);
        read != Err(ReadFault::NoItem)
    })
}
