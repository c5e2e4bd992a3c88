//! Calls for bare slots: every short run about the limits of segments, and long ones by chance.

use crate::bare::Call;
use crate::rng::Rng;
use model::{Placement, Slots, SEGMENT, SLOTS};

/// Every run of so many calls after each beginning: inserts, pushes and removals of addresses about the limits of segments, occupied or clear.
/// False once the taker wants no more.
pub fn every(count: usize, take: &mut dyn FnMut(&[Call]) -> bool) -> bool {
    let mut alphabet = vec![Call::Insert, Call::Push];
    let removed = [0, 5, 127, 128, 129, 255, 256, 400, SLOTS - 1, SLOTS];
    alphabet.extend(removed.map(Call::Remove));
    beginnings()
        .iter_mut()
        .all(|calls| extend(calls, &alphabet, count, take))
}

/// Pushes up to about the limit of a segment; and H 2 above L 1, where what was pushed went back upward and two pushes made L shrink.
fn beginnings() -> Vec<Vec<Call>> {
    let pushes = [0, 1, 128, 129, 257, 513, SLOTS - SEGMENT, SLOTS];
    let mut all: Vec<Vec<Call>> = pushes.map(|n| vec![Call::Push; n]).into();
    let mut above = vec![Call::Push; 257];
    above.extend((0..257).map(Call::Remove));
    above.extend([Call::Push; 2]);
    all.push(above);
    all
}

fn extend(
    calls: &mut Vec<Call>,
    alphabet: &[Call],
    more: usize,
    take: &mut dyn FnMut(&[Call]) -> bool,
) -> bool {
    if more == 0 {
        return take(calls);
    }
    alphabet.iter().all(|call| {
        calls.push(*call);
        let on = extend(calls, alphabet, more - 1, take);
        calls.pop();
        on
    })
}

/// A run by chance: bursts of one call, removals of what is occupied, and in three runs of four of anything, clear or not.
pub fn by_chance(rng: &mut Rng) -> Vec<Call> {
    let mut maker = Maker {
        slots: Slots::new(Placement::ByHead, None),
        calls: Vec::new(),
        above: rng.once_in(6),
        any: [0, 1, 4, 20][rng.below(4)],
    };
    for _ in 0..1 + rng.below(24) {
        let burst = match rng.below(4) {
            0 => rng.below(4),
            1 => 126 + rng.below(5),
            2 => rng.below(40),
            _ => rng.below(SLOTS / 2),
        };
        match rng.below(8) {
            0 | 1 => maker.inserts(burst),
            2 | 3 => maker.pushes(burst),
            4 => maker.upward(rng),
            5 => maker.rise(rng),
            _ => maker.removals(burst / 2, rng),
        }
    }
    maker.calls
}

struct Maker {
    slots: Slots,
    calls: Vec<Call>,
    /// may meet H > L
    above: bool,
    /// one removal in so many is of any address; none for 0
    any: usize,
}

impl Maker {
    fn make(&mut self, call: Call) {
        match call {
            Call::Insert => drop(self.slots.insert()),
            Call::Push => drop(self.slots.push()),
            Call::Remove(a) => drop(self.slots.remove(a)),
        }
        self.calls.push(call);
    }

    fn inserts(&mut self, n: usize) {
        for _ in 0..n {
            match self.slots.head_is_above() && !self.above {
                true => self.make(Call::Push),
                false => self.make(Call::Insert),
            }
        }
    }

    fn pushes(&mut self, n: usize) {
        for _ in 0..n {
            self.make(Call::Push);
        }
    }

    /// All that is occupied from here on, as a scope's pop does: the head ends up high.
    fn upward(&mut self, rng: &mut Rng) {
        let from = rng.below(self.slots.past_greatest());
        for address in from..SLOTS {
            if self.slots.occupied(address) {
                self.make(Call::Remove(address));
            }
        }
    }

    /// H may end up above L.
    fn rise(&mut self, rng: &mut Rng) {
        self.pushes(rng.below(SLOTS / 2));
        self.upward(rng);
        self.pushes(rng.below(130));
        self.inserts(rng.below(4));
    }

    fn removals(&mut self, n: usize, rng: &mut Rng) {
        for _ in 0..n {
            let address = victim(rng, &self.slots, self.any);
            self.make(Call::Remove(address));
        }
    }
}

fn victim(rng: &mut Rng, slots: &Slots, any: usize) -> usize {
    if any > 0 && rng.once_in(any) {
        // mostly in a segment that exists
        return match rng.once_in(8) {
            true => rng.below(SLOTS + 200),
            false => rng.below(SEGMENT * slots.length()),
        };
    }
    let g = slots.past_greatest();
    if rng.once_in(3) {
        return g.saturating_sub(1);
    }
    let from = rng.below(g);
    let occupied = (from..g).find(|a| slots.occupied(*a));
    // At or past segment L there is nothing: both answer no.
    occupied.unwrap_or(SEGMENT * slots.length() + rng.below(300))
}
