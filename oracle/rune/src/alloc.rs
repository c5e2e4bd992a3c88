//! Stand-in for `rune_alloc`: collections whose growth may fail; here it never does.

use std::collections::HashMap as StdHashMap;
use std::hash::{BuildHasherDefault, Hash, Hasher};
use std::ops::{Deref, DerefMut};

pub(crate) mod prelude {
    pub(crate) use super::Vec;
}

pub(crate) mod vec {
    pub(crate) use std::vec::IntoIter;
}

#[derive(Debug)]
pub(crate) enum Error {}

pub(crate) type Result<T, E = Error> = core::result::Result<T, E>;

/// `std::vec::Vec` with the two names that are asked for.
#[derive(Debug)]
pub(crate) struct Vec<T>(std::vec::Vec<T>);

impl<T> Vec<T> {
    pub(crate) const fn new() -> Self {
        Vec(std::vec::Vec::new())
    }

    pub(crate) fn try_with_capacity(n: usize) -> Result<Self> {
        Ok(Vec(std::vec::Vec::with_capacity(n)))
    }

    pub(crate) fn try_push(&mut self, value: T) -> Result<()> {
        self.0.push(value);
        Ok(())
    }
}

impl<T> Default for Vec<T> {
    fn default() -> Self {
        Vec::new()
    }
}

impl<T> Deref for Vec<T> {
    type Target = std::vec::Vec<T>;

    fn deref(&self) -> &Self::Target {
        &self.0
    }
}

impl<T> DerefMut for Vec<T> {
    fn deref_mut(&mut self) -> &mut Self::Target {
        &mut self.0
    }
}

impl<T> IntoIterator for Vec<T> {
    type Item = T;
    type IntoIter = vec::IntoIter<T>;

    fn into_iter(self) -> Self::IntoIter {
        self.0.into_iter()
    }
}

/// A cheap hash: keys are small numbers, and no order of a map is ever looked at.
#[derive(Default)]
pub(crate) struct Spread(u64);

impl Hasher for Spread {
    fn finish(&self) -> u64 {
        self.0
    }

    fn write(&mut self, bytes: &[u8]) {
        for byte in bytes {
            self.write_u64((*byte).into());
        }
    }

    fn write_u64(&mut self, n: u64) {
        self.0 = (self.0.rotate_left(5) ^ n).wrapping_mul(0x9e37_79b9_7f4a_7c15);
    }

    fn write_usize(&mut self, n: usize) {
        self.write_u64(n as u64);
    }
}

type Map<K, V> = StdHashMap<K, V, BuildHasherDefault<Spread>>;

/// `std`'s map with the names that are asked for.
#[derive(Debug)]
pub(crate) struct HashMap<K, V>(Map<K, V>);

impl<K: Eq + Hash, V> HashMap<K, V> {
    pub(crate) fn new() -> Self {
        HashMap(Map::default())
    }

    pub(crate) fn try_insert(&mut self, key: K, value: V) -> Result<Option<V>> {
        Ok(self.0.insert(key, value))
    }
}

impl<K: Eq + Hash, V> Default for HashMap<K, V> {
    fn default() -> Self {
        HashMap::new()
    }
}

impl<K, V> Deref for HashMap<K, V> {
    type Target = Map<K, V>;

    fn deref(&self) -> &Self::Target {
        &self.0
    }
}

impl<K, V> DerefMut for HashMap<K, V> {
    fn deref_mut(&mut self) -> &mut Self::Target {
        &mut self.0
    }
}
