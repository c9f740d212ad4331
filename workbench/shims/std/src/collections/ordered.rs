//! Sorted entries in short lists, each of whose keys are below those of the next list. None is empty.
use crate::alloc::{AllocError, AllocFailed};
use crate::heap::vec::Vec;
use core::borrow::Borrow;
use core::iter::{FlatMap, Map};
use core::slice;

/// The longest list. A longer one is parted in two halves.
const LONGEST: usize = 128;

type List<K, V> = Vec<(K, V)>;

pub struct Ordered<K, V> {
    lists: Vec<List<K, V>>,
    count: usize,
}

/// Where an entry is, or where it belongs: its list, and its place there.
type Place = (usize, usize);

fn pair<K, V>(entry: &(K, V)) -> (&K, &V) {
    (&entry.0, &entry.1)
}

fn first<'a, K>(entry: (&'a K, &'a ())) -> &'a K {
    entry.0
}

type Pairs<'a, K, V> = Map<slice::Iter<'a, (K, V)>, fn(&'a (K, V)) -> (&'a K, &'a V)>;

pub type Iter<'a, K, V> =
    FlatMap<slice::Iter<'a, List<K, V>>, Pairs<'a, K, V>, fn(&'a List<K, V>) -> Pairs<'a, K, V>>;

pub type Keys<'a, K> = Map<Iter<'a, K, ()>, fn((&'a K, &'a ())) -> &'a K>;

fn pairs<K, V>(list: &List<K, V>) -> Pairs<'_, K, V> {
    list.iter().map(pair)
}

impl<K, V> Ordered<K, V> {
    pub const fn new() -> Self {
        Ordered {
            lists: Vec::new(),
            count: 0,
        }
    }

    pub fn len(&self) -> usize {
        self.count
    }

    pub fn iter(&self) -> Iter<'_, K, V> {
        self.lists.iter().flat_map(pairs)
    }
}

impl<K> Ordered<K, ()> {
    pub fn keys(&self) -> Keys<'_, K> {
        self.iter().map(first)
    }
}

impl<K: Ord, V> Ordered<K, V> {
    fn find<Q: Ord + ?Sized>(&self, key: &Q) -> Result<Place, Place>
    where
        K: Borrow<Q>,
    {
        // The last list that begins with the key or below it, or the first one.
        let after = self.lists.partition_point(|list| list[0].0.borrow() <= key);
        let at = after.saturating_sub(1);
        match self.lists.get(at) {
            None => Err((0, 0)),
            Some(list) => match list.binary_search_by(|entry| entry.0.borrow().cmp(key)) {
                Ok(place) => Ok((at, place)),
                Err(place) => Err((at, place)),
            },
        }
    }

    pub fn get<Q: Ord + ?Sized>(&self, key: &Q) -> Option<&V>
    where
        K: Borrow<Q>,
    {
        let (list, place) = self.find(key).ok()?;
        Some(&self.lists[list][place].1)
    }

    /// Makes room for one more entry at a place, and says where that is then.
    fn make_room(&mut self, (at, place): Place) -> Result<Place, AllocError> {
        if self.lists.get(at).is_some_and(|list| list.len() < LONGEST) {
            return Ok((at, place));
        }
        // Each list has room for as many as it may have, so that nothing else takes memory.
        self.lists.try_reserve(1).map_err(|_| AllocError)?;
        let mut more = Vec::new();
        more.try_reserve_exact(LONGEST).map_err(|_| AllocError)?;
        let Some(full) = self.lists.get_mut(at) else {
            self.lists.push(more);
            return Ok((at, place));
        };
        more.extend(full.drain(LONGEST / 2..));
        self.lists.insert(at + 1, more);
        Ok(if place <= LONGEST / 2 {
            (at, place)
        } else {
            (at + 1, place - LONGEST / 2)
        })
    }

    fn put(&mut self, (list, place): Place, key: K, value: V) -> &mut V {
        self.lists[list].insert(place, (key, value));
        self.count += 1;
        &mut self.lists[list][place].1
    }

    pub fn insert(&mut self, key: K, value: V) -> Result<Option<V>, AllocFailed<(K, V)>> {
        match self.find(&key) {
            Ok((list, place)) => Ok(Some(core::mem::replace(
                &mut self.lists[list][place].1,
                value,
            ))),
            Err(place) => match self.make_room(place) {
                Ok(place) => {
                    self.put(place, key, value);
                    Ok(None)
                }
                Err(AllocError) => Err(AllocFailed {
                    value: (key, value),
                }),
            },
        }
    }

    pub fn entry(&mut self, key: K) -> Result<Entry<'_, K, V>, AllocFailed<K>> {
        let place = match self.find(&key) {
            Ok(place) => Ok(place),
            Err(place) => match self.make_room(place) {
                Ok(place) => Err(place),
                Err(AllocError) => return Err(AllocFailed { value: key }),
            },
        };
        Ok(Entry {
            all: self,
            place,
            key,
        })
    }
}

/// The entry of a key, or the room for one.
pub struct Entry<'a, K, V> {
    all: &'a mut Ordered<K, V>,
    place: Result<Place, Place>,
    key: K,
}

impl<'a, K: Ord, V> Entry<'a, K, V> {
    /// The value of the key, which is this one where it has none.
    pub fn or_insert(self, value: V) -> &'a mut V {
        match self.place {
            Ok((list, place)) => &mut self.all.lists[list][place].1,
            Err(place) => self.all.put(place, self.key, value),
        }
    }
}

#[cfg(test)]
mod tests {
    use super::{LONGEST, Ordered};

    #[test]
    fn keeps_all_in_order() {
        let count = 20 * LONGEST as u64;
        for step in [1, 3, 7, 2_654_435_761_u64] {
            let mut all = Ordered::new();
            for number in 0..count {
                let key = number * step % 1_000_003;
                assert!(matches!(all.insert(key, number), Ok(None)), "{key} is new");
                assert!(matches!(all.insert(key, number + 1), Ok(Some(old)) if old == number));
            }
            assert_eq!(all.len() as u64, count);
            assert!(all.iter().map(|it| *it.0).is_sorted());
            assert_eq!(all.iter().count() as u64, count);
            for number in 0..count {
                assert_eq!(all.get(&(number * step % 1_000_003)), Some(&(number + 1)));
            }
            assert_eq!(all.get(&2_000_000), None);
        }
    }

    #[test]
    fn counts_by_entries() {
        let mut all = Ordered::new();
        for number in 0..3000_u32 {
            let Ok(entry) = all.entry(number * 7 % 601) else {
                unreachable!("there is memory");
            };
            *entry.or_insert(0) += 1;
        }
        assert_eq!(all.len(), 601);
        assert_eq!(all.iter().map(|it| *it.1).sum::<i32>(), 3000);
    }
}
