//! The same frames in both editions: what they print when they are run and where they are refused, and how large their frames are.

use crate::campaign::Counts;
use crate::judge::{answer, Answer};
use crate::ours::{Model, Ours};
use crate::random;
use crate::rng::Rng;
use model::{Frame, Script, LINES};
use std::fmt;

/// What ours prints for the frames in edition 1 and in edition 2.
pub struct Both {
    pub first: Vec<u8>,
    pub second: Vec<u8>,
}

/// None where there are more frames than stand behind a title.
pub fn both(ours: &mut dyn Ours, frames: &[Frame]) -> Option<Both> {
    (frames.len() < LINES).then(|| Both {
        first: ours.answer(&Frame::script(frames)),
        second: ours.answer(&Script::tight(frames).text()),
    })
}

/// The frame that is refused, and the number; none where the script is taken.
fn refusal(printed: &[u8], titles: usize) -> Option<(usize, u8)> {
    match answer(printed) {
        Some(Answer::Refused(number, line)) => Some((line.wrapping_sub(titles), number)),
        _ => None,
    }
}

/// The last line of a list.
fn size(list: &[u8]) -> usize {
    let digits = &list[list.len() - 5..list.len() - 1];
    let digits = std::str::from_utf8(digits).expect("a list");
    usize::from_str_radix(digits, 16).expect("a size line")
}

impl Both {
    /// In edition 1 and in edition 2, where both take the script.
    pub fn sizes(&self) -> Option<(usize, usize)> {
        let refused = refusal(&self.first, 0).or(refusal(&self.second, 1));
        refused
            .is_none()
            .then(|| (size(&self.first), size(&self.second)))
    }

    /// What a script means doesn't depend on the placement, and of the refusals 7 alone does: what is wrong, if anything is.
    pub fn apart(&self, recording: &[u8]) -> Option<String> {
        let (first, second) = (refusal(&self.first, 0), refusal(&self.second, 1));
        let frame = |r: Option<(usize, u8)>| r.map_or(usize::MAX, |(frame, _)| frame);
        let earlier = match frame(first) < frame(second) {
            true => first,
            false => second,
        };
        match earlier {
            None => {
                let printed = |list: &[u8]| model::recorded_runner(list, recording);
                let same = printed(&self.first) == printed(&self.second);
                (!same).then(|| "the two lists print differently".into())
            }
            Some(_) if first == second => None,
            Some((_, 7)) if frame(first) != frame(second) => None,
            Some(_) => Some(format!("edition 1 {first:?}, edition 2 {second:?}")),
        }
    }
}

/// Frame sizes of scripts that both editions take.
#[derive(Default)]
pub struct Sizes {
    pub scripts: u64,
    pub smaller: u64,
    pub larger: u64,
    pub first: u64,
    pub second: u64,
    /// edition 1's and edition 2's where most is saved
    pub most: (usize, usize),
}

impl Sizes {
    pub fn count(&mut self, (first, second): (usize, usize)) {
        self.scripts += 1;
        self.smaller += u64::from(second < first);
        self.larger += u64::from(second > first);
        self.first += first as u64;
        self.second += second as u64;
        if first.saturating_sub(second) > self.most.0 - self.most.1 {
            self.most = (first, second);
        }
    }
}

/// Of these scripts, by the model.
pub fn sizes(scripts: impl Iterator<Item = Vec<Frame>>) -> Sizes {
    let mut sizes = Sizes::default();
    for frames in scripts {
        let both = both(&mut Model(None), &frames);
        if let Some(pair) = both.and_then(|both| both.sizes()) {
            sizes.count(pair);
        }
    }
    sizes
}

/// Scripts by chance through both editions.
#[derive(Default)]
pub struct Tally {
    pub sizes: Sizes,
    /// by one edition, by 7
    one_refuses: u64,
    both_refuse: u64,
    pub loads: u64,
}

impl Tally {
    pub fn counts(&self) -> Counts {
        Counts {
            taken: self.sizes.scripts,
            refused: self.both_refuse + self.one_refuses,
            ..Counts::default()
        }
    }

    fn count(&mut self, both: &Both) {
        match both.sizes() {
            Some(sizes) => {
                self.sizes.count(sizes);
                let loads = both.first.split(|b| *b == b'\n');
                let loads = loads.filter(|l| l.starts_with(b"11") || l.starts_with(b"12"));
                self.loads += loads.count() as u64;
            }
            None if refusal(&both.first, 0) == refusal(&both.second, 1) => self.both_refuse += 1,
            None => self.one_refuses += 1,
        }
    }
}

impl fmt::Display for Tally {
    fn fmt(&self, f: &mut fmt::Formatter<'_>) -> fmt::Result {
        let Sizes {
            scripts,
            smaller,
            larger,
            first,
            second,
            most,
        } = self.sizes;
        let loads = self.loads;
        writeln!(
            f,
            "  {scripts:>10}  taken by both, printing the same when run, {loads} loads"
        )?;
        writeln!(
            f,
            "  {:>10}  refused by both, at one frame and alike",
            self.both_refuse
        )?;
        writeln!(
            f,
            "  {:>10}  refused by 7 in one edition, or earlier there",
            self.one_refuses
        )?;
        write!(
            f,
            "  slots of the frames: {first} in edition 1, {second} in edition 2; {smaller} are smaller there, {larger} larger; most is saved from {} to {}",
            most.0, most.1
        )
    }
}

/// As many samples as any script takes.
fn recording(rng: &mut Rng) -> Vec<u8> {
    let line = |value: u64| format!("30{:04x}\n", value & 0xffff).into_bytes();
    (0..LINES).flat_map(|_| line(rng.draw())).collect()
}

/// Scripts of all kinds by chance, half of them made along edition 1. The first that isn't alike, and why.
pub fn by_chance(
    ours: &mut dyn Ours,
    count: u64,
    seed: u64,
) -> (Tally, Option<(Vec<Frame>, String)>) {
    let mut rng = Rng::new(seed);
    let recording = recording(&mut rng);
    let mut tally = Tally::default();
    for i in 0..count {
        let made = match i % 2 {
            0 => random::tight(&mut rng),
            _ => random::any(&mut rng),
        };
        let Some(both) = both(ours, &made.frames) else {
            continue;
        };
        if let Some(why) = both.apart(&recording) {
            return (tally, Some((made.frames, why)));
        }
        tally.count(&both);
    }
    (tally, None)
}
