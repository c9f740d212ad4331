//! A list whose growth may be refused.
use crate::alloc::{AllocError, AllocFailed, Global};
use crate::heap::vec as real;
use crate::string::String;
use core::fmt;
use core::ops::{Deref, DerefMut};

/// How many octets the elements of a long list take at least.
const LONG: usize = 4096;

/// A list.
#[derive(PartialEq, Eq, PartialOrd, Ord, Hash)]
pub struct Vec<T>(real::Vec<T>);

impl<T> Vec<T> {
    #[inline]
    pub const fn new(_: Global) -> Vec<T> {
        Vec(real::Vec::new())
    }

    /// A list of Rust's own as one of these.
    pub fn from_real(list: real::Vec<T>) -> Vec<T> {
        Vec(list)
    }

    /// The same as a list of Rust's own.
    pub fn into_real(self) -> real::Vec<T> {
        self.0
    }

    pub fn with_capacity(_: Global, count: usize) -> Result<Vec<T>, AllocError> {
        let mut list = real::Vec::new();
        list.try_reserve_exact(count).map_err(|_| AllocError)?;
        Ok(Vec(list))
    }

    pub fn from_array<const N: usize>(alloc: Global, items: [T; N]) -> Result<Vec<T>, AllocError> {
        let mut list = Vec::with_capacity(alloc, N)?;
        list.0.extend(items);
        Ok(list)
    }

    pub fn allocator(&self) -> &Global {
        &Global
    }

    pub fn reserve(&mut self, count: usize) -> Result<(), AllocError> {
        self.0.try_reserve(count).map_err(|_| AllocError)
    }

    #[inline]
    pub fn push(&mut self, value: T) -> Result<(), AllocFailed<T>> {
        if self.0.len() == self.0.capacity() && self.0.try_reserve(1).is_err() {
            return Err(AllocFailed { value });
        }
        self.0.push(value);
        Ok(())
    }

    pub fn insert(&mut self, at: usize, value: T) -> Result<(), AllocFailed<T>> {
        if self.0.try_reserve(1).is_err() {
            return Err(AllocFailed { value });
        }
        self.0.insert(at, value);
        Ok(())
    }

    /// Gives back room that no element has, where memory for the elements alone is granted. A long
    /// list keeps its room, since the elements would stand twice while they are moved.
    pub fn shrink_to_fit(&mut self) {
        let is_long = core::mem::size_of_val(self.0.as_slice()) > LONG;
        if is_long || self.0.len() == self.0.capacity() {
            return;
        }
        let mut exact = real::Vec::new();
        if exact.try_reserve_exact(self.0.len()).is_ok() {
            exact.append(&mut self.0);
            self.0 = exact;
        }
    }

    pub fn append(&mut self, other: &mut Vec<T>) -> Result<(), AllocError> {
        self.reserve(other.0.len())?;
        self.0.append(&mut other.0);
        Ok(())
    }

    pub fn pop(&mut self) -> Option<T> {
        self.0.pop()
    }

    pub fn remove(&mut self, at: usize) -> T {
        self.0.remove(at)
    }

    pub fn clear(&mut self) {
        self.0.clear();
    }

    pub fn truncate(&mut self, count: usize) {
        self.0.truncate(count);
    }

    pub fn as_slice(&self) -> &[T] {
        &self.0
    }

    pub fn as_mut_slice(&mut self) -> &mut [T] {
        &mut self.0
    }

    pub fn sort(&mut self) -> Result<(), AllocError>
    where
        T: Ord,
    {
        crate::sort::sort(&mut self.0, T::cmp)
    }

    pub fn sort_by_key<K: Ord, F: FnMut(&T) -> K>(&mut self, mut key: F) -> Result<(), AllocError> {
        crate::sort::sort(&mut self.0, |a, b| key(a).cmp(&key(b)))
    }
}

impl<T: Copy> Vec<T> {
    pub fn extend_from_slice(&mut self, items: &[T]) -> Result<(), AllocError> {
        self.reserve(items.len())?;
        self.0.extend_from_slice(items);
        Ok(())
    }

    pub fn from_slice(alloc: Global, items: &[T]) -> Result<Vec<T>, AllocError> {
        let mut list = Vec::with_capacity(alloc, items.len())?;
        list.0.extend_from_slice(items);
        Ok(list)
    }

    pub fn from_elem(alloc: Global, value: T, count: usize) -> Result<Vec<T>, AllocError> {
        let mut list = Vec::with_capacity(alloc, count)?;
        list.0.resize(count, value);
        Ok(list)
    }

    pub fn resize(&mut self, count: usize, value: T) -> Result<(), AllocError> {
        self.reserve(count.saturating_sub(self.0.len()))?;
        self.0.resize(count, value);
        Ok(())
    }

    pub fn clone(&self) -> Result<Vec<T>, AllocError> {
        Vec::from_slice(Global, &self.0)
    }
}

impl Vec<String> {
    pub fn join(&self, alloc: Global, between: &str) -> Result<String, AllocError> {
        let mut all = String::new(alloc);
        for (at, text) in self.0.iter().enumerate() {
            if at > 0 {
                all.push_str(between)?;
            }
            all.push_str(text)?;
        }
        Ok(all)
    }
}

impl<T> Deref for Vec<T> {
    type Target = [T];
    #[inline]
    fn deref(&self) -> &[T] {
        &self.0
    }
}

impl<T> DerefMut for Vec<T> {
    #[inline]
    fn deref_mut(&mut self) -> &mut [T] {
        &mut self.0
    }
}

impl<T: fmt::Debug> fmt::Debug for Vec<T> {
    fn fmt(&self, f: &mut fmt::Formatter<'_>) -> fmt::Result {
        self.0.fmt(f)
    }
}

impl<T> IntoIterator for Vec<T> {
    type Item = T;
    type IntoIter = real::IntoIter<T>;
    fn into_iter(self) -> Self::IntoIter {
        self.0.into_iter()
    }
}

impl<'a, T> IntoIterator for &'a Vec<T> {
    type Item = &'a T;
    type IntoIter = core::slice::Iter<'a, T>;
    fn into_iter(self) -> Self::IntoIter {
        self.0.iter()
    }
}

impl<'a, T> IntoIterator for &'a mut Vec<T> {
    type Item = &'a mut T;
    type IntoIter = core::slice::IterMut<'a, T>;
    fn into_iter(self) -> Self::IntoIter {
        self.0.iter_mut()
    }
}

#[cfg(feature = "serde")]
impl<T: serde::Serialize> serde::Serialize for Vec<T> {
    fn serialize<S: serde::Serializer>(&self, to: S) -> Result<S::Ok, S::Error> {
        to.collect_seq(self.0.iter())
    }
}
