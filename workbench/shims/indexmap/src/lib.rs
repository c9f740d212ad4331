//! Maps and sets in the order of insertion, as the sources of `edd` call the crate `indexmap`. Memory
//! may be refused at each growth, which that crate itself does not offer.
#![no_std]

mod slots;

use core::borrow::Borrow;
use core::hash::Hash;
use slots::Slots;
use std::alloc::{AllocFailed, Global};
use std::vec::Vec;

/// Values by their keys.
pub struct IndexMap<K, V> {
    entries: Vec<(K, V)>,
    slots: Slots,
}

impl<K: Eq + Hash, V> IndexMap<K, V> {
    pub fn new(alloc: Global) -> Self {
        IndexMap {
            entries: Vec::new(alloc),
            slots: Slots::new(alloc),
        }
    }

    pub fn len(&self) -> usize {
        self.entries.len()
    }

    pub fn is_empty(&self) -> bool {
        self.entries.is_empty()
    }

    pub fn get_index_of<Q: ?Sized + Hash + Eq>(&self, key: &Q) -> Option<usize>
    where
        K: Borrow<Q>,
    {
        let hash = self.slots.hash(key);
        self.slots.find(hash, self.entries.len(), |place| {
            self.entries[place].0.borrow() == key
        })
    }

    pub fn get<Q: ?Sized + Hash + Eq>(&self, key: &Q) -> Option<&V>
    where
        K: Borrow<Q>,
    {
        self.get_index_of(key).map(|place| &self.entries[place].1)
    }

    pub fn get_mut<Q: ?Sized + Hash + Eq>(&mut self, key: &Q) -> Option<&mut V>
    where
        K: Borrow<Q>,
    {
        self.get_index_of(key)
            .map(|place| &mut self.entries[place].1)
    }

    pub fn contains_key<Q: ?Sized + Hash + Eq>(&self, key: &Q) -> bool
    where
        K: Borrow<Q>,
    {
        self.get_index_of(key).is_some()
    }

    /// The value that the key had before, if any. A new key comes last.
    pub fn insert(&mut self, key: K, value: V) -> Result<Option<V>, AllocFailed<(K, V)>> {
        let hash = self.slots.hash(&key);
        let place = self.entries.len();
        let found = self
            .slots
            .find(hash, place, |place| self.entries[place].0 == key);
        if let Some(found) = found {
            let old = &mut self.entries[found].1;
            return Ok(Some(core::mem::replace(old, value)));
        }
        if self.entries.reserve(1).is_err()
            || self
                .slots
                .make_room(self.entries.iter().map(|it| &it.0))
                .is_err()
        {
            return Err(AllocFailed {
                value: (key, value),
            });
        }
        self.slots.note(hash, &key, place);
        self.entries.push((key, value))?;
        Ok(None)
    }

    pub fn get_index(&self, place: usize) -> Option<(&K, &V)> {
        self.entries.get(place).map(|(key, value)| (key, value))
    }

    pub fn iter(&self) -> impl ExactSizeIterator<Item = (&K, &V)> {
        self.entries.iter().map(|(key, value)| (key, value))
    }

    pub fn keys(&self) -> impl ExactSizeIterator<Item = &K> {
        self.entries.iter().map(|(key, _)| key)
    }

    pub fn values(&self) -> impl ExactSizeIterator<Item = &V> {
        self.entries.iter().map(|(_, value)| value)
    }
}

/// Elements, each once.
pub struct IndexSet<K> {
    elements: Vec<K>,
    slots: Slots,
}

impl<K: Eq + Hash> IndexSet<K> {
    pub fn new(alloc: Global) -> Self {
        IndexSet {
            elements: Vec::new(alloc),
            slots: Slots::new(alloc),
        }
    }

    pub fn len(&self) -> usize {
        self.elements.len()
    }

    pub fn is_empty(&self) -> bool {
        self.elements.is_empty()
    }

    pub fn as_slice(&self) -> &[K] {
        self.elements.as_slice()
    }

    pub fn iter(&self) -> core::slice::Iter<'_, K> {
        self.elements.iter()
    }

    pub fn get_index(&self, place: usize) -> Option<&K> {
        self.elements.get(place)
    }

    pub fn get_index_of(&self, element: &K) -> Option<usize> {
        let hash = self.slots.hash(element);
        self.slots.find(hash, self.elements.len(), |place| {
            self.elements[place] == *element
        })
    }

    pub fn contains(&self, element: &K) -> bool {
        self.get_index_of(element).is_some()
    }

    /// The element's place, and whether it is new. A new one comes last.
    pub fn insert_full(&mut self, element: K) -> Result<(usize, bool), AllocFailed<K>> {
        let hash = self.slots.hash(&element);
        let place = self.elements.len();
        let found = self
            .slots
            .find(hash, place, |place| self.elements[place] == element);
        if let Some(found) = found {
            return Ok((found, false));
        }
        if self.elements.reserve(1).is_err() || self.slots.make_room(self.elements.iter()).is_err()
        {
            return Err(AllocFailed { value: element });
        }
        self.slots.note(hash, &element, place);
        self.elements.push(element)?;
        Ok((place, true))
    }

    /// Keeps the first elements.
    pub fn truncate(&mut self, count: usize) {
        if count < self.elements.len() {
            self.elements.truncate(count);
            self.slots.lay_out(self.elements.iter());
        }
    }
}

#[cfg(test)]
mod tests {
    use super::{IndexMap, IndexSet};
    use std::alloc::Global;
    use std::rt::HostRuntime;

    #[std::test]
    fn finds_what_was_put_in(_rt: HostRuntime) {
        let mut map = IndexMap::new(Global);
        for number in 0..5000_u32 {
            let key = number.wrapping_mul(2_654_435_761);
            assert!(matches!(map.insert(key, number), Ok(None)));
            assert!(matches!(map.insert(key, number + 1), Ok(Some(old)) if old == number));
        }
        for number in 0..5000_u32 {
            assert_eq!(
                map.get(&number.wrapping_mul(2_654_435_761)),
                Some(&(number + 1))
            );
            assert_eq!(
                map.get_index(number as usize).map(|it| *it.1),
                Some(number + 1)
            );
        }
        assert_eq!(map.get(&1), None);
        assert_eq!(map.len(), 5000);
    }

    #[std::test]
    fn keeps_the_first_elements(_rt: HostRuntime) {
        let mut set = IndexSet::new(Global);
        for number in 0..100_u32 {
            assert!(
                matches!(set.insert_full(number), Ok((place, true)) if place == number as usize)
            );
        }
        set.truncate(40);
        assert_eq!(
            set.as_slice(),
            (0..40).collect::<heap::vec::Vec<u32>>().as_slice()
        );
        assert!(set.contains(&39) && !set.contains(&40));
        assert!(matches!(set.insert_full(40), Ok((40, true))));
        assert!(matches!(set.insert_full(3), Ok((3, false))));
    }

    extern crate alloc as heap;
}
