//! The original's `Slots` by itself, with a view of L and H.

use super::Slots;

/// Half of the slots that our rules have; the original has no limit.
const HALF: usize = model::SLOTS / 2;

pub struct Bare(Slots);

impl Default for Bare {
    fn default() -> Self {
        Bare(Slots::new())
    }
}

impl Bare {
    pub fn insert(&mut self) -> usize {
        self.0.insert().expect("growth never fails here")
    }

    pub fn push(&mut self) -> usize {
        self.0.push().expect("growth never fails here")
    }

    pub fn remove(&mut self, key: usize) -> bool {
        self.0.remove(key)
    }

    pub fn length(&self) -> usize {
        self.0.length()
    }

    pub fn head(&self) -> usize {
        self.0.head()
    }

    pub fn occupied(&self, key: usize) -> bool {
        self.0.segment(key / 128) >> (key % 128) & 1 == 1
    }

    /// The sum of the addresses that n pairs give over a half-full frame: slot a is removed and one inserted, then slot
    /// (a + stride) mod HALF, and so on from slot 0. It stands here so that the compiler may inline the calls.
    pub fn pairs(n: usize, stride: u16) -> u64 {
        let mut slots = Bare::default();
        for _ in 0..HALF {
            slots.insert();
        }
        let (mut a, mut sum) = (0, 0u64);
        for _ in 0..n {
            slots.remove(a);
            sum = sum.wrapping_add(slots.insert() as u64);
            a = (a + usize::from(stride)) % HALF;
        }
        sum
    }
}
