//! A value that is shared in one thread, for which memory may be refused. Stable Rust's own refuses
//! by an abort.
#![allow(unsafe_code)]
use crate::alloc::{AllocError, AllocFailed, Global};
use crate::heap::boxed::Box as RealBox;
use crate::heap::vec::Vec as RealVec;
use core::cell::Cell;
use core::fmt;
use core::marker::PhantomData;
use core::ops::Deref;
use core::ptr::NonNull;

struct Counted<T> {
    count: Cell<usize>,
    value: T,
}

/// A shared value.
pub struct Rc<T> {
    place: NonNull<Counted<T>>,
    owns: PhantomData<Counted<T>>,
}

impl<T> Rc<T> {
    pub fn new(_: Global, value: T) -> Result<Rc<T>, AllocFailed<T>> {
        let mut room = RealVec::new();
        if room.try_reserve_exact(1).is_err() {
            return Err(AllocFailed { value });
        }
        room.push(Counted {
            count: Cell::new(1),
            value,
        });
        let place = NonNull::from(RealBox::leak(room.into_boxed_slice())).cast();
        Ok(Rc {
            place,
            owns: PhantomData,
        })
    }

    fn counted(&self) -> &Counted<T> {
        // SAFETY: it was made by `new`, and lives until the last of its owners is dropped.
        unsafe { self.place.as_ref() }
    }

    /// One more owner of the same value.
    pub fn clone(&self) -> Result<Rc<T>, AllocError> {
        let count = self
            .counted()
            .count
            .get()
            .checked_add(1)
            .ok_or(AllocError)?;
        self.counted().count.set(count);
        Ok(Rc {
            place: self.place,
            owns: PhantomData,
        })
    }
}

impl<T> Drop for Rc<T> {
    fn drop(&mut self) {
        let left = self.counted().count.get() - 1;
        self.counted().count.set(left);
        if left == 0 {
            let slice = NonNull::slice_from_raw_parts(self.place, 1);
            // SAFETY: this was the last owner, and `new` took the memory as a slice of one.
            drop(unsafe { RealBox::from_raw(slice.as_ptr()) });
        }
    }
}

impl<T> Deref for Rc<T> {
    type Target = T;
    fn deref(&self) -> &T {
        &self.counted().value
    }
}

impl<T: PartialEq> PartialEq for Rc<T> {
    fn eq(&self, other: &Rc<T>) -> bool {
        **self == **other
    }
}

impl<T: Eq> Eq for Rc<T> {}

impl<T: fmt::Debug> fmt::Debug for Rc<T> {
    fn fmt(&self, f: &mut fmt::Formatter<'_>) -> fmt::Result {
        (**self).fmt(f)
    }
}
