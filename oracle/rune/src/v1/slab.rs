//! Stand-in: a table that gives the lowest free index (01, "our rule").

use crate::alloc;

#[derive(Debug)]
pub(super) struct Slab<T>(Vec<Option<T>>);

impl<T> Slab<T> {
    pub(super) fn new() -> Self {
        Slab(Vec::new())
    }

    pub(super) fn vacant_key(&self) -> usize {
        let free = self.0.iter().position(Option::is_none);
        free.unwrap_or(self.0.len())
    }

    pub(super) fn insert(&mut self, value: T) -> alloc::Result<usize> {
        let key = self.vacant_key();
        match self.0.get_mut(key) {
            Some(place) => *place = Some(value),
            None => self.0.push(Some(value)),
        }
        Ok(key)
    }

    pub(super) fn get(&self, key: usize) -> Option<&T> {
        self.0.get(key)?.as_ref()
    }

    pub(super) fn get_mut(&mut self, key: usize) -> Option<&mut T> {
        self.0.get_mut(key)?.as_mut()
    }

    pub(super) fn try_remove(&mut self, key: usize) -> Option<T> {
        self.0.get_mut(key)?.take()
    }
}
