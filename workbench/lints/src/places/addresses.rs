//! What is known of nodes, by their addresses.

use std::collections::HashMap;
use std::hash::{BuildHasherDefault, Hasher};
use std::ptr;

/// The address of a node of any type.
pub(crate) type Address = usize;

pub(crate) fn of<T>(node: &T) -> Address {
    ptr::from_ref(node).addr()
}

/// Values by the addresses of nodes of one type, of which no one is inside of another without a box
/// or a list between.
pub(crate) struct Addresses<T, V> {
    values: HashMap<Address, V, BuildHasherDefault<AddressHasher>>,
    nodes: std::marker::PhantomData<fn(&T)>,
}

impl<T, V> Default for Addresses<T, V> {
    fn default() -> Self {
        Addresses {
            values: HashMap::default(),
            nodes: std::marker::PhantomData,
        }
    }
}

impl<T, V: Copy + Default> Addresses<T, V> {
    pub(crate) fn insert(&mut self, node: &T, value: V) {
        self.insert_at(of(node), value);
    }

    pub(crate) fn get(&self, node: &T) -> V {
        self.get_at(of(node))
    }

    /// Makes room for so many more.
    pub(crate) fn reserve(&mut self, count: usize) {
        self.values.reserve(count);
    }

    pub(crate) fn insert_at(&mut self, address: Address, value: V) {
        self.values.insert(address, value);
    }

    pub(crate) fn get_at(&self, address: Address) -> V {
        self.values.get(&address).copied().unwrap_or_default()
    }
}

/// A hasher of one address. Nodes lie close to each other, so that a factor spreads them.
#[derive(Default)]
pub(crate) struct AddressHasher(u64);

const FACTOR: u64 = 0x9E37_79B9_7F4A_7C15;

impl Hasher for AddressHasher {
    fn finish(&self) -> u64 {
        self.0
    }

    fn write(&mut self, bytes: &[u8]) {
        for byte in bytes {
            self.0 = (self.0 ^ u64::from(*byte))
                .wrapping_mul(FACTOR)
                .rotate_left(23);
        }
    }

    fn write_usize(&mut self, number: usize) {
        let number = u64::try_from(number).unwrap_or_default();
        self.0 = (self.0 ^ number).wrapping_mul(FACTOR).rotate_left(23);
    }
}
