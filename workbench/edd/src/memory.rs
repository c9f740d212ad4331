//! The core's allocator, and what happens where it has no memory.

use core_std::alloc::AllocError;
use std::alloc::{Layout, handle_alloc_error};

pub(crate) use core_std::alloc::Global;

/// Ends the program as the rest of Rust does where memory for a `T` is refused.
pub(crate) fn refused<T>() -> ! {
    handle_alloc_error(Layout::new::<T>())
}

/// What the core made, if it had memory for it.
pub(crate) fn made<T>(answer: Result<T, AllocError>) -> T {
    answer.unwrap_or_else(|AllocError| refused::<T>())
}
