//! The axes of a drawing: frames from left to right, slots from below. Slots that never part from their neighbours share a
//! band, which is lower than their number, so that a single slot stays visible beside a run of hundreds.

use super::{Beside, Shared, Side};
use rune::Held;

/// Allocations of neighbouring handles in neighbouring slots, given and let go together; one, where it shares its slot.
#[derive(Clone, Debug, PartialEq, Eq)]
pub struct Block {
    pub first: Held,
    pub count: usize,
    pub until: usize,
}

impl Block {
    pub fn past(&self) -> usize {
        self.first.slot + self.count
    }

    /// Its handle, or the first and the last.
    pub fn label(&self) -> String {
        let first = self.first.handle;
        match self.count {
            1 => first.to_string(),
            n => format!("{first}\u{2013}{}", first + n - 1),
        }
    }
}

pub fn blocks(side: &Side, shared: &[Shared]) -> Vec<Block> {
    let shares = |handle| {
        let of = |s: &Shared| s.older.handle == handle || s.newer.handle == handle;
        shared.iter().any(of)
    };
    let mut blocks: Vec<Block> = Vec::new();
    let mut alone = true;
    for held in side.held.iter().filter(|h| h.from < side.end) {
        let until = held.until.unwrap_or(side.end).min(side.end);
        let single = shares(held.handle);
        let joins =
            |b: &Block| b.past() == held.slot && b.first.from == held.from && b.until == until;
        match blocks.last_mut() {
            Some(block) if !alone && !single && joins(block) => block.count += 1,
            _ => blocks.push(Block {
                first: *held,
                count: 1,
                until,
            }),
        }
        alone = single;
    }
    blocks
}

struct Band {
    first: usize,
    past: usize,
    from_below: f64,
    height: f64,
}

pub struct Axes {
    bands: Vec<Band>,
    pub height: f64,
    pub frame: f64,
    pub frames: usize,
}

const WIDTH: f64 = 1160.0;
const WIDEST_FRAME: f64 = 84.0;
const HIGHEST: f64 = 460.0;
const SLOT: f64 = 18.0;
const SHARED: f64 = 30.0;
const UNUSED: f64 = 9.0;
/// A label can be read in a band of this height: where bands are few, none is lower.
const LABELLED: f64 = 13.0;

impl Axes {
    /// One pair of axes for both allocators.
    pub fn new(beside: &Beside, old: &[Block], ours: &[Block]) -> Axes {
        let all = || old.iter().chain(ours);
        let mut cuts: Vec<usize> = all().flat_map(|b| [b.first.slot, b.past()]).collect();
        cuts.sort_unstable();
        cuts.dedup();
        let used = |slot| all().any(|b| (b.first.slot..b.past()).contains(&slot));
        let gives_twice = |slot| beside.shared.iter().any(|s| s.slot == slot);
        let wanted = |first: usize, past: usize| match (used(first), gives_twice(first)) {
            (false, _) => UNUSED,
            (_, true) => SHARED,
            _ => SLOT + 9.0 * ((past - first) as f64).log2(),
        };
        let spans: Vec<(usize, usize)> = cuts.windows(2).map(|w| (w[0], w[1])).collect();
        let total: f64 = spans.iter().map(|(a, b)| wanted(*a, *b)).sum();
        let scale = (HIGHEST / total).min(1.0);
        let mut axes = Axes {
            bands: Vec::new(),
            height: 0.0,
            frame: (WIDTH / beside.frames.len().max(1) as f64).min(WIDEST_FRAME),
            frames: beside.frames.len(),
        };
        let few = beside.shared.len() <= 12;
        let lowest = if spans.len() <= 40 { LABELLED } else { 0.0 };
        for (first, past) in spans {
            let height = match few && gives_twice(first) {
                true => SHARED,
                false => (scale * wanted(first, past)).max(lowest.min(wanted(first, past))),
            };
            axes.push(first, past, height);
        }
        axes
    }

    fn push(&mut self, first: usize, past: usize, height: f64) {
        self.bands.push(Band {
            first,
            past,
            from_below: self.height,
            height,
        });
        self.height += height;
    }

    pub fn x(&self, line: usize) -> f64 {
        self.frame * line as f64
    }

    pub fn width(&self) -> f64 {
        self.x(self.frames)
    }

    /// The lower edge of a slot, from above.
    pub fn y(&self, slot: usize) -> f64 {
        let above = self.bands.partition_point(|b| b.past <= slot);
        match self.bands.get(above) {
            Some(band) => {
                let part = (slot - band.first) as f64 / (band.past - band.first) as f64;
                self.height - band.from_below - part * band.height
            }
            None => 0.0,
        }
    }

    /// Slots that get a number at the side, with room between them.
    pub fn slot_ticks(&self) -> Vec<usize> {
        let mut ticks = Vec::new();
        let mut last = f64::INFINITY;
        for slot in self.bands.iter().map(|b| b.first) {
            if last - self.y(slot) >= 12.0 {
                last = self.y(slot);
                ticks.push(slot);
            }
        }
        ticks
    }

    /// Frames that get a number below.
    pub fn frame_ticks(&self) -> impl Iterator<Item = usize> {
        let steps = [1, 2, 5, 10, 20, 50, 100, 200, 500, 1000];
        let wide = |step: &&usize| **step as f64 * self.frame >= 30.0;
        let step = steps.iter().find(wide).copied().unwrap_or(2000);
        (0..self.frames).step_by(step)
    }
}
