//! Why no octets are shown.

use edd::{Image, OctetsFault, Side};
use std::fmt;

/// Why no octets are shown. Displayed are its number, its name and its detail.
#[derive(Clone, Debug, PartialEq, Eq)]
pub enum TransactionFault {
    /// The image has no command of this name or number.
    NoCommand(String),
    /// The command has no transaction of this number.
    NoTransaction {
        /// The command, as it was asked for.
        command: String,
        /// The number of the transaction; none where the command has no transaction.
        number: Option<i64>,
    },
    /// A message has no octets, or the octets are not its.
    Octets {
        /// The fault.
        fault: OctetsFault,
        /// What it is about.
        detail: String,
    },
}

impl TransactionFault {
    /// A message that is not read.
    pub(crate) fn of_message(side: Side, fault: OctetsFault) -> TransactionFault {
        let detail = match side {
            Side::Request => "request",
            Side::Reply => "reply",
        };
        TransactionFault::Octets {
            fault,
            detail: detail.to_owned(),
        }
    }

    /// Octets that are not those of a reply. So many came, and so many were to come.
    pub(crate) fn of_reply(
        image: &Image,
        fault: OctetsFault,
        came: usize,
        needed: usize,
    ) -> TransactionFault {
        let detail = match fault {
            OctetsFault::TooShort | OctetsFault::TooLong => format!("{came} of {needed}"),
            fault => match fault.detail(image) {
                Some(detail) => detail,
                None => return TransactionFault::of_message(Side::Reply, fault),
            },
        };
        TransactionFault::Octets { fault, detail }
    }
}

impl fmt::Display for TransactionFault {
    fn fmt(&self, f: &mut fmt::Formatter<'_>) -> fmt::Result {
        match self {
            TransactionFault::NoCommand(command) => write!(f, "274 NO_COMMAND {command}"),
            TransactionFault::NoTransaction { command, number } => {
                write!(f, "275 NO_TRANSACTION {command}")?;
                match number {
                    Some(number) => write!(f, " {number}"),
                    None => Ok(()),
                }
            }
            TransactionFault::Octets { fault, detail } => write!(f, "{fault} {detail}"),
        }
    }
}

impl std::error::Error for TransactionFault {}
