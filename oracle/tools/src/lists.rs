//! Lists for the run program: those of scripts made by chance, some damaged, some with other addresses and sizes; some with samples, some with
//! a title or what is near to one.

use crate::damage::{damage_once, entitle};
use crate::random;
use crate::rng::Rng;
use model::{LINES, SLOTS};

/// What lines by chance are like.
struct Lines {
    /// an address is at the size or above: once in so many
    high: usize,
    sampled: bool,
}

/// A line by chance: mostly well formed, with addresses about the size.
fn line(rng: &mut Rng, size: usize, lines: &Lines) -> String {
    let address = match rng.below(lines.high) {
        0 => size + rng.below(2),
        _ => rng.below(size),
    };
    if lines.sampled && rng.once_in(3) {
        return format!("14{address:04x}\n");
    }
    match rng.below(8) {
        0 | 1 => format!("10{address:04x}{:04x}\n", rng.below(65536)),
        2 => format!("11{address:04x}\n"),
        3 => format!("12{address:04x}\n"),
        4 => format!("0f0001{:04x}\n", rng.below(65536)),
        5 => format!("06{:04x}\n", rng.below(65536)),
        6 => "25\n".into(),
        _ => format!("2{}{:04x}\n", rng.below(5), rng.below(65536)),
    }
}

fn by_chance(rng: &mut Rng, kind: &Lines) -> Vec<u8> {
    let size = match rng.below(8) {
        0 => SLOTS - 1 + rng.below(4),
        _ => 1 + rng.below(20),
    };
    let lines = match rng.below(20) {
        0 => LINES - 2 + rng.below(4),
        _ => rng.below(40),
    };
    let titled = rng.once_in(4);
    let mut list = String::from(if titled { "f00002\n" } else { "" });
    for _ in 0..lines {
        list += &line(rng, size, kind);
    }
    list += &format!("90{size:04x}\n");
    list.into_bytes()
}

fn of_script(rng: &mut Rng, source: random::Source) -> Vec<u8> {
    model::translator(&source(rng).text())
}

/// For a run without a recording, so a few have samples.
pub fn list(rng: &mut Rng) -> Vec<u8> {
    let mut list = match rng.below(6) {
        0 => of_script(rng, random::any),
        1 => of_script(rng, random::tight),
        _ => {
            let sampled = rng.once_in(8);
            by_chance(rng, &Lines { high: 12, sampled })
        }
    };
    if rng.once_in(12) {
        entitle(rng, &mut list);
    }
    if rng.once_in(3) {
        damage_once(rng, &mut list);
    }
    list
}

/// For a run beside a recording: most have samples.
pub fn sampled(rng: &mut Rng) -> Vec<u8> {
    let mut list = match rng.below(3) {
        0 => of_script(rng, random::with_samples),
        _ => {
            let (high, sampled) = (150, true);
            by_chance(rng, &Lines { high, sampled })
        }
    };
    if rng.once_in(12) {
        entitle(rng, &mut list);
    }
    if rng.once_in(8) {
        damage_once(rng, &mut list);
    }
    list
}
