//! The system, by a handle.
pub mod env;
pub mod fs;
pub mod os;
pub mod path;
pub mod pipe;
pub mod rt;

pub mod process {
    pub use crate::real::process::ExitCode;
    pub use crate::rt::Abort;
}
