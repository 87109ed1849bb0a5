//! Hash maps whose keys are IDs, already well below 64 bits.

use std::collections::{HashMap, HashSet};
use std::hash::{BuildHasherDefault, Hasher};

/// A map from IDs.
pub(crate) type IdMap<V> = HashMap<u64, V, BuildHasherDefault<IdHasher>>;

/// A set of IDs.
pub(crate) type IdSet = HashSet<u64, BuildHasherDefault<IdHasher>>;

/// An empty map with room for so many IDs.
pub(crate) fn id_map<V>(capacity: usize) -> IdMap<V> {
    IdMap::with_capacity_and_hasher(capacity, BuildHasherDefault::default())
}

/// An empty set with room for so many IDs.
pub(crate) fn id_set(capacity: usize) -> IdSet {
    IdSet::with_capacity_and_hasher(capacity, BuildHasherDefault::default())
}

/// Spreads one 64-bit key by a multiplication and a fold of its halves.
#[derive(Default)]
pub(crate) struct IdHasher(u64);

impl Hasher for IdHasher {
    fn write(&mut self, bytes: &[u8]) {
        for &byte in bytes {
            self.write_u64(u64::from(byte));
        }
    }

    fn write_u64(&mut self, key: u64) {
        let product = (self.0 ^ key).wrapping_mul(0x9e37_79b9_7f4a_7c15);
        self.0 = product ^ (product >> 32);
    }

    fn finish(&self) -> u64 {
        self.0
    }
}
