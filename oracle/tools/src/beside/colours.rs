//! A colour of its own for each allocation, the same in both allocators.

use super::axes::Block;

/// A colour for each handle, and how many there are.
pub struct Colours(usize);

/// Up to here neighbouring handles get hues far apart. More would blend into grey, so they go through the hues once.
const APART: usize = 60;

impl Colours {
    pub fn new(old: &[Block], ours: &[Block]) -> Colours {
        let all = || old.iter().chain(ours);
        match old.len().max(ours.len()) > APART {
            true => Colours(all().map(|b| b.first.handle + b.count).max().unwrap_or(1)),
            false => Colours(0),
        }
    }

    /// Hue and lightness.
    pub fn of(&self, handle: usize) -> (f64, u32) {
        match self.0 {
            0 => ((handle as f64 * 137.508 + 205.0) % 360.0, 76),
            all => {
                let part = handle as f64 / all as f64;
                (320.0 * part, if handle.is_multiple_of(2) { 74 } else { 66 })
            }
        }
    }
}
