//! Stands where the original has its own tests of `Slots`: a view of L and H, which are private to it.

use super::Slots;

impl Slots {
    /// L, the number of segments.
    pub(crate) fn length(&self) -> usize {
        self.storage.len()
    }

    /// H, the head segment.
    pub(crate) fn head(&self) -> usize {
        self.head
    }

    /// The bits of a segment.
    pub(crate) fn segment(&self, index: usize) -> u128 {
        self.storage.get(index).copied().unwrap_or_default()
    }
}
