//! Document 01, "Slots", with the sizes of W-206 of document 02; `remove` as W-202 amends it, `insert` of edition 2 by W-211, and W-203's slots where a
//! list shows them.

use crate::edition::Placement;
use crate::fault::{Fault, Plant};

/// "in .. segments of 128"
pub const SEGMENT: usize = 128;
/// W-206: "Raise slots to 4,096 in 32 segments"
pub const SEGMENTS: usize = 32;
/// See [`SEGMENTS`].
pub const SLOTS: usize = SEGMENTS * SEGMENT;

/// "State: the occupied slots, segment count L, head segment H."
#[derive(Clone)]
pub struct Slots {
    occupied: [bool; SLOTS],
    /// how many are occupied in each segment: an empty or a full one needn't be looked through
    held: [usize; SEGMENTS],
    length: usize,
    head: usize,
    placement: Placement,
    plant: Plant,
}

impl Slots {
    /// "Fresh: none, 0, 0."
    pub fn new(placement: Placement, plant: Plant) -> Self {
        Slots {
            occupied: [false; SLOTS],
            held: [0; SEGMENTS],
            length: 0,
            head: 0,
            placement,
            plant,
        }
    }

    /// Where the allocations from here on go.
    pub fn place(&mut self, placement: Placement) {
        self.placement = placement;
    }

    pub fn placement(&self) -> Placement {
        self.placement
    }

    /// L.
    pub fn length(&self) -> usize {
        self.length
    }

    /// H.
    pub fn head(&self) -> usize {
        self.head
    }

    /// Would an insert of edition 1 meet H > L? There the original answers one slot and marks another.
    pub fn head_is_above(&self) -> bool {
        self.placement == Placement::ByHead && self.head > self.length
    }

    /// W-206: "State the room rule once over the number of segments": no slot from this segment on is given.
    fn segments(&self) -> usize {
        match self.plant {
            Some(Fault::SegmentShort) => SEGMENTS - 1,
            _ => SEGMENTS,
        }
    }

    /// The same over slots: from this one on none is given.
    pub fn room(&self) -> usize {
        SEGMENT * self.segments()
    }

    pub fn occupied(&self, address: usize) -> bool {
        address < SLOTS && self.occupied[address]
    }

    /// The slot is occupied or clear from here on; was it occupied?
    fn mark(&mut self, address: usize, occupied: bool) -> bool {
        let before = std::mem::replace(&mut self.occupied[address], occupied);
        let held = &mut self.held[address / SEGMENT];
        *held = *held + usize::from(occupied) - usize::from(before);
        before
    }

    fn lowest_clear(&self, segment: usize) -> Option<usize> {
        let first = SEGMENT * segment;
        let any = self.held[segment] < SEGMENT;
        any.then(|| (first..first + SEGMENT).find(|a| !self.occupied[*a]))?
    }

    /// None is a refusal by 7.
    pub fn insert(&mut self) -> Option<usize> {
        match self.placement {
            Placement::ByHead => self.insert_by_head(),
            Placement::Lowest => self.insert_lowest(),
            Placement::Exactly(address) => self.take_run(address, 1),
        }
    }

    /// W-203: "each run is consecutive, no slot is given while another allocation holds it": the n slots from an address on, of which the first
    /// is answered.
    pub fn take_run(&mut self, first: usize, n: usize) -> Option<usize> {
        let looked_at = match self.plant {
            Some(Fault::GivenWhileHeld) => 0,
            Some(Fault::RunByFirst) => 1,
            _ => n,
        };
        if first + n > self.room() || (first..first + looked_at).any(|a| self.occupied[a]) {
            return None;
        }
        (first..first + n).for_each(|a| self.take_at(a));
        Some(first)
    }

    /// "L grows to take in its segment, and H becomes it"
    fn take_at(&mut self, address: usize) {
        let segment = address / SEGMENT;
        self.mark(address, true);
        if self.plant != Some(Fault::TightKeepsLength) {
            self.length = self.length.max(segment + 1);
        }
        if self.plant != Some(Fault::TightKeepsHead) {
            self.head = segment;
        }
    }

    /// W-211: "insert gives the lowest clear slot of all, whatever was removed last".
    /// No later answer depends on this L and H: no insert looks at them, and a slot past L is clear, which `remove` says no to anyway.
    fn insert_lowest(&mut self) -> Option<usize> {
        let address = match self.plant {
            Some(Fault::TightFromHead) => {
                let first = SEGMENT * self.head.min(self.length);
                (first..self.room()).find(|a| !self.occupied[*a])?
            }
            Some(Fault::TightFromOne) => (1..self.room()).find(|a| !self.occupied[*a])?,
            _ => (0..self.segments()).find_map(|s| self.lowest_clear(s))?,
        };
        self.take_at(address);
        Some(address)
    }

    /// In edition 2 only a planted fault asks for it.
    pub fn insert_by_head(&mut self) -> Option<usize> {
        let mut start = self.head.min(self.length);
        if self.plant == Some(Fault::SearchFromZero) {
            start = 0;
        }
        for segment in start..self.length {
            if let Some(address) = self.lowest_clear(segment) {
                self.mark(address, true);
                self.head = segment;
                return Some(address);
            }
        }
        if self.length == self.segments() {
            return None;
        }
        let address = SEGMENT * self.length;
        self.mark(address, true);
        self.head = self.length;
        self.length += 1;
        Some(address)
    }

    /// g: "one past the greatest occupied slot, 0 if none".
    pub fn past_greatest(&self) -> usize {
        match self.plant {
            Some(Fault::LowHalf) => (0..SLOTS)
                .rev()
                .find(|a| self.occupied[*a] && a % SEGMENT < 64)
                .map_or(0, |a| a + 1),
            Some(Fault::RunInGap) => (0..SLOTS).find(|a| !self.occupied[*a]).unwrap_or(SLOTS),
            _ => {
                // no slot from segment L on is occupied
                let last = self.held[..self.length].iter().rposition(|n| *n > 0);
                let past = last.map_or(0, |segment| SEGMENT * (segment + 1));
                let greatest = self.occupied[..past].iter().rposition(|o| *o);
                greatest.map_or(0, |greatest| greatest + 1)
            }
        }
    }

    /// None is a refusal by 7.
    pub fn push(&mut self) -> Option<usize> {
        let g = self.past_greatest();
        if g == self.room() {
            return None;
        }
        self.mark(g, true);
        if g.is_multiple_of(SEGMENT) {
            let length = g / SEGMENT + 1;
            self.length = match self.plant {
                Some(Fault::LengthNeverShrinks) => self.length.max(length),
                _ => length,
            };
        }
        Some(g)
    }

    /// Yes exactly if the slot was occupied. H becomes its segment wherever that exists, also where the slot was clear.
    pub fn remove(&mut self, address: usize) -> bool {
        let segment = address / SEGMENT;
        if segment >= self.length {
            return false;
        }
        let existed = self.mark(address, false);
        let stays = match self.plant {
            Some(Fault::HeadStays) => true,
            Some(Fault::ClearLeavesHead) => !existed,
            _ => false,
        };
        if !stays {
            self.head = segment;
        }
        existed
    }
}
