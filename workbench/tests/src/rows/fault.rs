//! What can be wrong with a row.

use super::memory::Call;
use super::run::Run;
use crate::parallel::Panicked;

/// What is wrong with a row.
#[derive(Debug, Clone, PartialEq, Eq, thiserror::Error)]
pub enum Fault {
    #[error("wanted: {wanted}\nprinted: {printed}")]
    Differs { wanted: Run, printed: Run },
    #[error("{call} {number} fails: wanted: status 3 after the first lines\nprinted: {printed}")]
    AfterFailure {
        call: Call,
        number: u32,
        printed: Run,
    },
    #[error("{call} {number} fails, and the program makes another {call}\nprinted: {printed}")]
    WentOn {
        call: Call,
        number: u32,
        printed: Run,
    },
    #[error("{0}s never end")]
    Endless(Call),
    #[error(
        "with damaged files, {command}: wanted: status 0 or a refusal with its number\nprinted: {printed}"
    )]
    Damaged { command: String, printed: Run },
    #[error("the image of its source is not the stored one: {0}")]
    Image(ImageFault),
    #[error(transparent)]
    Panicked(#[from] Panicked),
}

/// How the image of a row's source differs from the stored one.
#[derive(Debug, Clone, Copy, PartialEq, Eq, thiserror::Error)]
pub enum ImageFault {
    #[error("none is stored")]
    NotStored,
    #[error("the source has none now")]
    Refused,
    #[error("byte {0} differs")]
    Differs(usize),
}
