//! Why a command ends before its end.

use crate::checking::lint_names;
use core_std::alloc::AllocError;
use edd_files::{FileFault, INPUT, NamedFault};
use edd_loader::LoadFault;
use edd_run::RunError;
use edd_transactions::TransactionFault;
use std::borrow::Cow;
use std::io;
use thiserror::Error;

/// The exit status of a command that did all that it was asked for.
pub const DONE: u8 = 0;

/// The exit status where a description, a script, values or a test is refused, or texts differ.
pub(crate) const REFUSED: u8 = 1;

/// The exit status of a mistake on the command line.
pub const COMMAND_LINE: u8 = 2;

/// The exit status where a file or the output could not be read or written.
pub const FILE: u8 = 3;

/// The exit status where there is no memory.
const MEMORY: u8 = 4;

/// Why a command ends before its end. Displayed is the line that is printed.
#[derive(Debug, Error)]
pub(crate) enum Failure {
    /// A file could not be read or written.
    #[error("file {name}")]
    File { name: String, fault: FileFault },
    /// What was to be shown, run or opened is refused.
    #[error(transparent)]
    Run(RunError),
    /// One of several sources is refused.
    #[error("refused {refusal} of {name}")]
    SourceOf { name: String, refusal: String },
    /// One of several images is refused.
    #[error("refused {fault} of {name}")]
    ImageOf { name: String, fault: LoadFault },
    /// An image is refused, with this number and name.
    #[error("refused {0}")]
    Image(String),
    /// There is no such transaction, or octets are not those of its reply.
    #[error("refused {0}")]
    Transaction(TransactionFault),
    #[error("error: {0} is not the number of a transaction")]
    NoTransactionNumber(String),
    #[error("error: nothing is refused with the number {0}")]
    NoNumber(String),
    #[error("error: nothing is refused with the name {0}")]
    NoName(String),
    #[error("error: no lint has the name {0}: the lints are {lints}", lints = lint_names())]
    NoLint(String),
    /// All lines are printed already, and the command ends with this status.
    #[error("status {0}")]
    Printed(u8),
    #[error("the output can't be written")]
    Output(io::Error),
    #[error("no memory")]
    Memory,
}

impl Failure {
    /// The exit status, where the line could be printed.
    pub(crate) fn status(&self) -> u8 {
        match self {
            Failure::Run(_)
            | Failure::SourceOf { .. }
            | Failure::ImageOf { .. }
            | Failure::Image(_)
            | Failure::Transaction(_) => REFUSED,
            Failure::NoTransactionNumber(_)
            | Failure::NoNumber(_)
            | Failure::NoName(_)
            | Failure::NoLint(_) => COMMAND_LINE,
            Failure::File { .. } | Failure::Output(_) => FILE,
            Failure::Printed(status) => *status,
            Failure::Memory => MEMORY,
        }
    }

    /// The line that is printed, if one is.
    pub(crate) fn line(&self) -> Option<Cow<'static, str>> {
        match self {
            Failure::Printed(_) | Failure::Output(_) => None,
            // It takes no memory.
            Failure::Memory => Some(Cow::Borrowed("no memory\n")),
            _ => Some(Cow::Owned(format!("{self}\n"))),
        }
    }
}

/// Why a file could not be read or written, in words.
pub(crate) fn reason(fault: FileFault) -> &'static str {
    match fault {
        FileFault::Missing => "why: it does not exist",
        FileFault::Folder => "why: it is a folder",
        FileFault::MayNotRead => "why: it may not be read",
        FileFault::TooLarge => "why: it has more than 67108864 bytes",
        FileFault::NoFolder => "why: its folder does not exist",
        FileFault::MayNotWrite => "why: it or its folder may not be written",
        FileFault::IsRead => "why: it was read, and is not replaced",
        FileFault::Failed | FileFault::Memory => "why: it could not be read or written",
    }
}

impl From<RunError> for Failure {
    fn from(error: RunError) -> Failure {
        match error {
            RunError::Memory => Failure::Memory,
            RunError::Output => Failure::Output(io::ErrorKind::Other.into()),
            RunError::Input => Failure::File {
                name: INPUT.to_owned(),
                fault: FileFault::Failed,
            },
            refused => Failure::Run(refused),
        }
    }
}

impl From<TransactionFault> for Failure {
    fn from(fault: TransactionFault) -> Failure {
        Failure::Transaction(fault)
    }
}

impl From<NamedFault<'_>> for Failure {
    fn from(fault: NamedFault<'_>) -> Failure {
        match fault {
            NamedFault::Memory => Failure::Memory,
            NamedFault::File(name, fault) => Failure::File {
                name: name.to_owned(),
                fault,
            },
        }
    }
}

impl From<io::Error> for Failure {
    fn from(error: io::Error) -> Failure {
        Failure::Output(error)
    }
}

impl From<serde_json::Error> for Failure {
    fn from(error: serde_json::Error) -> Failure {
        Failure::Output(error.into())
    }
}

impl From<AllocError> for Failure {
    fn from(_: AllocError) -> Failure {
        Failure::Memory
    }
}
