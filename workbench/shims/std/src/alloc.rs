//! The allocator, and what is answered where it has no memory.
use core::fmt;

/// The allocator.
#[derive(Clone, Copy, Debug, Default)]
pub struct Global;

/// No memory.
#[derive(Clone, Copy, Debug, PartialEq, Eq)]
pub struct AllocError;

/// No memory, with what could not be stored.
#[derive(Debug)]
pub struct AllocFailed<T> {
    pub value: T,
}

impl<T> From<AllocFailed<T>> for AllocError {
    fn from(_: AllocFailed<T>) -> AllocError {
        AllocError
    }
}

impl fmt::Display for AllocError {
    fn fmt(&self, f: &mut fmt::Formatter<'_>) -> fmt::Result {
        f.write_str("out of memory")
    }
}

impl<T> fmt::Display for AllocFailed<T> {
    fn fmt(&self, f: &mut fmt::Formatter<'_>) -> fmt::Result {
        f.write_str("out of memory")
    }
}

impl crate::error::Error for AllocError {}

impl<T: fmt::Debug> crate::error::Error for AllocFailed<T> {}

/// Whoever has an allocator, as the handle of the system.
pub trait Alloc {
    fn alloc(&self) -> Global {
        Global
    }
}

/// Whoever has the allocator.
pub trait AllocGlobal: Alloc {}

impl<R: Alloc> AllocGlobal for R {}
