//! Where elements are, by their hashes: a table with twice as many slots as elements at least, in
//! which one looks on from the slot of the hash to the first free one. A slot has the hash beside the
//! place, so that other elements are mostly passed by without a look at them, and none is hashed
//! again where the table grows. A few elements have no table: to compare with each of them is cheaper.
use core::hash::{Hash, Hasher};
use std::alloc::{AllocError, Global};
use std::vec::Vec;

const FREE: u32 = u32::MAX;

/// How many elements have no table.
const FEW: usize = 4;

/// Takes eight bytes at a time, with a fixed seed: what a program does depends on its input alone.
struct Fixed(u64);

impl Fixed {
    fn mix(&mut self, word: u64) {
        self.0 = (self.0.rotate_left(5) ^ word).wrapping_mul(0x9e37_79b9_7f4a_7c15);
    }
}

// The last bytes, fewer than eight of them, and how many they are: the first and the last ones of
// them, which may be the same.
fn last_word(bytes: &[u8]) -> u64 {
    let word = if let (Some(first), Some(last)) = (bytes.first_chunk(), bytes.last_chunk()) {
        u64::from(u32::from_le_bytes(*first)) << 32 | u64::from(u32::from_le_bytes(*last))
    } else if let (Some(first), Some(last)) = (bytes.first_chunk(), bytes.last_chunk()) {
        u64::from(u16::from_le_bytes(*first)) << 16 | u64::from(u16::from_le_bytes(*last))
    } else {
        bytes.first().map_or(0, |byte| u64::from(*byte))
    };
    word ^ (bytes.len() as u64) << 59
}

impl Hasher for Fixed {
    fn write(&mut self, bytes: &[u8]) {
        let mut words = bytes.chunks_exact(8);
        for word in &mut words {
            if let Ok(word) = word.try_into() {
                self.mix(u64::from_le_bytes(word));
            }
        }
        self.mix(last_word(words.remainder()));
    }

    fn write_u8(&mut self, number: u8) {
        self.mix(u64::from(number));
    }

    fn write_u32(&mut self, number: u32) {
        self.mix(u64::from(number));
    }

    fn write_u64(&mut self, number: u64) {
        self.mix(number);
    }

    fn write_usize(&mut self, number: usize) {
        self.mix(number as u64);
    }

    fn finish(&self) -> u64 {
        self.0 ^ (self.0 >> 32)
    }
}

fn hash_of<Q: Hash + ?Sized>(key: &Q) -> u32 {
    let mut hash = Fixed(0xcbf2_9ce4_8422_2325);
    key.hash(&mut hash);
    hash.finish() as u32
}

/// An element's place and its hash, or nothing.
#[derive(Clone, Copy)]
struct Slot {
    place: u32,
    hash: u32,
}

const NOTHING: Slot = Slot { place: FREE, hash: 0 };

/// The places of elements, a power of two of them, or none where there are few elements.
pub struct Slots(Vec<Slot>);

impl Slots {
    pub const fn new(alloc: Global) -> Slots {
        Slots(Vec::new(alloc))
    }

    /// The hash of a key, where there is a table.
    pub fn hash<Q: Hash + ?Sized>(&self, key: &Q) -> Option<u32> {
        (!self.0.is_empty()).then(|| hash_of(key))
    }

    /// The place of the element with the key of this hash among so many, of which `is` says whether it
    /// is at a place.
    pub fn find(
        &self,
        hash: Option<u32>,
        count: usize,
        is: impl Fn(usize) -> bool,
    ) -> Option<usize> {
        let Some(hash) = hash else {
            return (0..count).find(|place| is(*place));
        };
        let found = self.0[self.slot(hash, is)].place;
        (found != FREE).then_some(found as usize)
    }

    // The slot of the element, or the free one at which it belongs. Half of all slots are free.
    fn slot(&self, hash: u32, is: impl Fn(usize) -> bool) -> usize {
        let mask = self.0.len() - 1;
        let mut at = hash as usize & mask;
        loop {
            let slot = self.0[at];
            if slot.place == FREE || slot.hash == hash && is(slot.place as usize) {
                return at;
            }
            at = (at + 1) & mask;
        }
    }

    /// Makes room for one element more than these, which are laid out anew where the table is full.
    pub fn make_room<K: Hash>(
        &mut self,
        keys: impl ExactSizeIterator<Item = K>,
    ) -> Result<(), AllocError> {
        if keys.len() < FEW {
            return Ok(());
        }
        let wanted = keys
            .len()
            .checked_add(1)
            .and_then(|count| count.checked_mul(2))
            .ok_or(AllocError)?;
        if wanted <= self.0.len() {
            return Ok(());
        }
        let size = wanted.checked_next_power_of_two().ok_or(AllocError)?;
        if size >= FREE as usize {
            return Err(AllocError);
        }
        let before = core::mem::replace(&mut self.0, Vec::from_elem(Global, NOTHING, size)?);
        if before.is_empty() {
            self.note_all(keys);
        }
        for slot in before.iter().filter(|slot| slot.place != FREE) {
            self.put(*slot);
        }
        Ok(())
    }

    /// Notes these elements, at the places from 0 on, and no others.
    pub fn lay_out<K: Hash>(&mut self, keys: impl Iterator<Item = K>) {
        self.0.as_mut_slice().fill(NOTHING);
        self.note_all(keys);
    }

    fn note_all<K: Hash>(&mut self, keys: impl Iterator<Item = K>) {
        for (place, key) in keys.enumerate() {
            self.note(None, &key, place);
        }
    }

    /// Notes an element that is not there yet, after room was made for it.
    pub fn note<Q: Hash + ?Sized>(&mut self, hash: Option<u32>, key: &Q, place: usize) {
        if self.0.is_empty() {
            return;
        }
        let hash = hash.unwrap_or_else(|| hash_of(key));
        let place = place as u32;
        self.put(Slot { place, hash });
    }

    fn put(&mut self, slot: Slot) {
        let at = self.slot(slot.hash, |_| false);
        self.0[at] = slot;
    }
}
