//! W-211: edition 2's slots beside the sets of their occupied and clear slots, without L and H; and A141 on L and H.

mod common;
use common::Chance;
use model::{Placement, Slots, SEGMENT, SLOTS};
use std::collections::BTreeSet;

/// Edition 2 as its words have it: which slots are occupied, and nothing else.
struct Sets {
    occupied: BTreeSet<usize>,
    clear: BTreeSet<usize>,
}

impl Sets {
    fn new() -> Self {
        Sets {
            occupied: BTreeSet::new(),
            clear: (0..SLOTS).collect(),
        }
    }

    fn take(&mut self, slot: usize) -> Option<usize> {
        self.clear.remove(&slot);
        self.occupied.insert(slot);
        Some(slot)
    }

    /// "the lowest clear slot of all"
    fn insert(&mut self) -> Option<usize> {
        let lowest = *self.clear.first()?;
        self.take(lowest)
    }

    /// "one past the greatest occupied slot, 0 if none"
    fn push(&mut self) -> Option<usize> {
        match self.occupied.last().map_or(0, |greatest| greatest + 1) {
            SLOTS => None,
            g => self.take(g),
        }
    }

    fn remove(&mut self, slot: usize) -> bool {
        let existed = self.occupied.remove(&slot);
        if existed {
            self.clear.insert(slot);
        }
        existed
    }
}

/// Both, call by call.
struct Both {
    slots: Slots,
    sets: Sets,
}

impl Both {
    fn new() -> Self {
        Both {
            slots: Slots::new(Placement::Lowest, None),
            sets: Sets::new(),
        }
    }

    /// A141: "max(L, segment + 1)".
    fn insert(&mut self) -> Option<usize> {
        let (length, head) = (self.slots.length(), self.slots.head());
        let given = self.slots.insert();
        assert_eq!(given, self.sets.insert());
        let (grown, moved) = match given.map(|slot| slot / SEGMENT) {
            Some(segment) => (length.max(segment + 1), segment),
            None => (length, head),
        };
        assert_eq!((self.slots.length(), self.slots.head()), (grown, moved));
        given
    }

    /// "push may still shrink it"; H stays.
    fn push(&mut self) -> Option<usize> {
        let (length, head) = (self.slots.length(), self.slots.head());
        let given = self.slots.push();
        assert_eq!(given, self.sets.push());
        let length = match given {
            Some(g) if g % SEGMENT == 0 => g / SEGMENT + 1,
            _ => length,
        };
        assert_eq!((self.slots.length(), self.slots.head()), (length, head));
        given
    }

    fn remove(&mut self, slot: usize) -> bool {
        let existed = self.slots.remove(slot);
        assert_eq!(existed, self.sets.remove(slot));
        existed
    }

    /// "no slot from segment L on is occupied": so L can be told by no answer.
    fn agree(&self) {
        let occupied = |slot: &usize| self.slots.occupied(*slot);
        assert!((0..SLOTS)
            .filter(occupied)
            .eq(self.sets.occupied.iter().copied()));
        let past = SEGMENT * self.slots.length();
        assert!(self.sets.occupied.last().is_none_or(|last| *last < past));
    }
}

#[test]
fn from_nothing_to_full() {
    let mut both = Both::new();
    for slot in 0..SLOTS {
        assert_eq!(both.insert(), Some(slot));
    }
    assert_eq!((both.insert(), both.push()), (None, None));
    both.agree();
}

#[test]
fn push_shrinks_what_insert_has_grown() {
    let mut both = Both::new();
    (0..300).for_each(|slot| assert_eq!(both.insert(), Some(slot)));
    assert_eq!(both.slots.length(), 3);
    (0..300).for_each(|slot| assert!(both.remove(slot)));
    assert_eq!((both.slots.length(), both.slots.head()), (3, 2));
    assert_eq!(both.push(), Some(0));
    assert_eq!((both.slots.length(), both.slots.head()), (1, 2));
    // H is above L, and the next insert doesn't look at it
    assert_eq!(both.insert(), Some(1));
    assert_eq!((both.slots.length(), both.slots.head()), (1, 0));
}

#[test]
fn by_chance() {
    let mut chance = Chance(211);
    let mut refused = 0;
    for _ in 0..100 {
        let mut both = Both::new();
        for _ in 0..1 + chance.below(30) {
            let burst = [1, 3, 130, SLOTS / 2][chance.below(4)];
            let kind = chance.below(3);
            for _ in 0..chance.below(burst) {
                match kind {
                    0 => refused += usize::from(both.insert().is_none()),
                    1 => refused += usize::from(both.push().is_none()),
                    _ => {
                        both.remove(chance.below(SLOTS));
                    }
                }
            }
        }
        both.agree();
    }
    assert!(refused > 100, "{refused}");
}
