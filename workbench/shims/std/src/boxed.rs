//! A box for which memory may be refused.
use crate::alloc::{AllocFailed, Global};
use crate::heap::boxed::Box as RealBox;
use crate::heap::vec::Vec as RealVec;
use core::fmt;
use core::ops::{Deref, DerefMut};

/// A box. It is an array of one, since stable Rust can refuse memory to a list and to no box.
#[derive(PartialEq, Eq, PartialOrd, Ord, Hash)]
pub struct Box<T>(RealBox<[T; 1]>);

impl<T> Box<T> {
    pub fn new(_: Global, value: T) -> Result<Box<T>, AllocFailed<T>> {
        let mut room = RealVec::new();
        if room.try_reserve_exact(1).is_err() {
            return Err(AllocFailed { value });
        }
        room.push(value);
        match RealBox::<[T; 1]>::try_from(room.into_boxed_slice()) {
            Ok(one) => Ok(Box(one)),
            Err(_) => unreachable!("a list of one has one"),
        }
    }

    pub fn into_inner(boxed: Box<T>) -> T {
        let [value] = *boxed.0;
        value
    }
}

impl<T> Deref for Box<T> {
    type Target = T;
    fn deref(&self) -> &T {
        &self.0[0]
    }
}

impl<T> DerefMut for Box<T> {
    fn deref_mut(&mut self) -> &mut T {
        &mut self.0[0]
    }
}

impl<T: fmt::Debug> fmt::Debug for Box<T> {
    fn fmt(&self, f: &mut fmt::Formatter<'_>) -> fmt::Result {
        self.0[0].fmt(f)
    }
}
