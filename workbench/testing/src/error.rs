//! Why tests are not run to their end.

use core_std::alloc::AllocError;
use edd_files::{FileFault, NamedFault};
use std::io;
use thiserror::Error;

/// Why tests are not run to their end.
#[derive(Debug, Error)]
pub enum TestError {
    /// A file can't be read or written: one of tests, or one that a test names.
    #[error("file {name}")]
    File {
        /// Its name.
        name: String,
        /// Why it can't.
        fault: FileFault,
    },
    /// The report can't be written.
    #[error("the output can't be written")]
    Output(#[from] io::Error),
    /// There is no memory.
    #[error("no memory")]
    Memory,
}

impl From<AllocError> for TestError {
    fn from(_: AllocError) -> TestError {
        TestError::Memory
    }
}

impl From<NamedFault<'_>> for TestError {
    fn from(fault: NamedFault<'_>) -> TestError {
        match fault {
            NamedFault::Memory => TestError::Memory,
            NamedFault::File(name, fault) => TestError::File {
                name: name.to_owned(),
                fault,
            },
        }
    }
}
