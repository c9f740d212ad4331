//! How a test ends.
use core::fmt;
use heap::string::String;

use crate::heap;

/// Why a test fails.
pub struct Fail(String);

impl<E: fmt::Debug> From<E> for Fail {
    fn from(error: E) -> Fail {
        Fail(heap::format!("{error:?}"))
    }
}

/// Ends a test with what its function gave.
pub fn end<R: Ending>(result: R) {
    result.end();
}

/// What the function of a test gives.
pub trait Ending {
    fn end(self);
}

impl Ending for () {
    fn end(self) {}
}

impl<T> Ending for Result<T, Fail> {
    fn end(self) {
        if let Err(Fail(why)) = self {
            panic!("{why}");
        }
    }
}
