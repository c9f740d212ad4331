//! Maps and sets in the order of their keys. Their memory may be refused at each growth, which Rust's
//! own don't offer, so they are lists of short sorted lists.
mod ordered;

use crate::alloc::{AllocFailed, Global};
use core::borrow::Borrow;
pub use ordered::Entry;
use ordered::Ordered;

/// Values by their keys.
pub struct BTreeMap<K, V>(Ordered<K, V>);

impl<K: Ord, V> BTreeMap<K, V> {
    pub const fn new(_: Global) -> Self {
        BTreeMap(Ordered::new())
    }

    /// The value that the key had before, if any.
    pub fn insert(&mut self, key: K, value: V) -> Result<Option<V>, AllocFailed<(K, V)>> {
        self.0.insert(key, value)
    }

    pub fn entry(&mut self, key: K) -> Result<Entry<'_, K, V>, AllocFailed<K>> {
        self.0.entry(key)
    }

    pub fn get<Q: Ord + ?Sized>(&self, key: &Q) -> Option<&V>
    where
        K: Borrow<Q>,
    {
        self.0.get(key)
    }

    pub fn contains_key<Q: Ord + ?Sized>(&self, key: &Q) -> bool
    where
        K: Borrow<Q>,
    {
        self.0.get(key).is_some()
    }

    pub fn iter(&self) -> impl Iterator<Item = (&K, &V)> {
        self.0.iter()
    }

    pub fn len(&self) -> usize {
        self.0.len()
    }

    pub fn is_empty(&self) -> bool {
        self.0.len() == 0
    }
}

impl<'a, K: Ord, V> IntoIterator for &'a BTreeMap<K, V> {
    type Item = (&'a K, &'a V);
    type IntoIter = ordered::Iter<'a, K, V>;
    fn into_iter(self) -> Self::IntoIter {
        self.0.iter()
    }
}

#[cfg(feature = "serde")]
impl<K: serde::Serialize + Ord, V: serde::Serialize> serde::Serialize for BTreeMap<K, V> {
    fn serialize<S: serde::Serializer>(&self, to: S) -> Result<S::Ok, S::Error> {
        to.collect_map(self.iter())
    }
}

/// Elements, each once.
pub struct BTreeSet<T>(Ordered<T, ()>);

impl<T: Ord> BTreeSet<T> {
    pub const fn new(_: Global) -> Self {
        BTreeSet(Ordered::new())
    }

    /// Whether the element is new.
    pub fn insert(&mut self, element: T) -> Result<bool, AllocFailed<T>> {
        match self.0.insert(element, ()) {
            Ok(before) => Ok(before.is_none()),
            Err(AllocFailed { value: (value, ()) }) => Err(AllocFailed { value }),
        }
    }

    pub fn contains<Q: Ord + ?Sized>(&self, element: &Q) -> bool
    where
        T: Borrow<Q>,
    {
        self.0.get(element).is_some()
    }

    pub fn len(&self) -> usize {
        self.0.len()
    }

    pub fn is_empty(&self) -> bool {
        self.0.len() == 0
    }
}

impl<'a, T: Ord> IntoIterator for &'a BTreeSet<T> {
    type Item = &'a T;
    type IntoIter = ordered::Keys<'a, T>;
    fn into_iter(self) -> Self::IntoIter {
        self.0.keys()
    }
}
