//! Recordings by chance beside lists: good, damaged, torn, too short, long; how they are cut into parts, and what is lent.

use crate::damage::damage_once;
use crate::lists;
use crate::rng::Rng;
use model::{RECORDING_LINES, SLOTS};
use std::fmt;

/// What is lent, in bytes.
#[derive(Clone, Copy, Debug, PartialEq, Eq)]
pub struct Room {
    pub samples: usize,
    pub cells: usize,
    pub out: usize,
    pub left: usize,
}

/// A list, and a recording that is fed to a reader in parts.
#[derive(Clone)]
pub struct Case {
    pub list: Vec<u8>,
    /// the reader's state before the first part: 0, or one near the last line
    pub first: u64,
    pub recording: Vec<u8>,
    /// how long the parts are; what is left is the last one
    pub cuts: Vec<usize>,
    pub room: Room,
}

impl Case {
    pub fn parts(&self) -> Vec<&[u8]> {
        let mut rest = &self.recording[..];
        let mut parts = Vec::new();
        for length in &self.cuts {
            let (part, after) = rest.split_at(rest.len().min(*length));
            parts.push(part);
            rest = after;
        }
        parts.push(rest);
        parts
    }
}

impl fmt::Display for Case {
    fn fmt(&self, f: &mut fmt::Formatter<'_>) -> fmt::Result {
        let shown = |text: &[u8]| text.escape_ascii().to_string();
        write!(f, "list {}", shown(&self.list))?;
        let parts: Vec<String> = self.parts().iter().map(|part| shown(part)).collect();
        write!(f, "\n  recording {}", parts.join(" | "))?;
        write!(f, "\n  state {:#x}, lent {:?}", self.first, self.room)
    }
}

fn lines(rng: &mut Rng, count: usize) -> Vec<u8> {
    let line = |value: u64| format!("30{:04x}\n", value & 0xffff).into_bytes();
    (0..count).flat_map(|_| line(rng.draw())).collect()
}

/// About as many lines as the list takes samples; at times far more.
fn recording(rng: &mut Rng, takes: usize) -> Vec<u8> {
    let count = match rng.below(40) {
        0 => 4000 + rng.below(5000),
        1..6 => rng.below(takes + 1),
        6..12 => takes,
        12..16 => takes.saturating_sub(1),
        _ => takes + rng.below(2 * takes + 4),
    };
    let mut text = lines(rng, count);
    match rng.below(12) {
        0..3 => damage_once(rng, &mut text),
        3 => {
            let whole = text.len();
            text.truncate(whole.saturating_sub(1 + rng.below(6)));
        }
        _ => {}
    }
    text
}

/// Byte by byte, about a line, longer, or in one part; some parts are empty.
fn cuts(rng: &mut Rng, bytes: usize) -> Vec<usize> {
    let longest = [1, 3, 8, 15, 60, 1000, usize::MAX][rng.below(7)];
    if longest == usize::MAX {
        return vec![];
    }
    let mut cuts = Vec::new();
    let mut left = bytes;
    while left > 0 {
        let length = match rng.below(9) {
            0 => 0,
            _ => 1 + rng.below(longest),
        };
        cuts.push(length);
        left = left.saturating_sub(length);
    }
    cuts
}

/// About what is needed.
fn about(rng: &mut Rng, needed: usize) -> usize {
    match rng.below(4) {
        0 => needed.saturating_sub(1),
        1 => needed,
        2 => needed + 1,
        _ => rng.below(needed + 2),
    }
}

/// Room in plenty, but for one of the four at times.
fn room(rng: &mut Rng, list: &[u8], takes: usize) -> Room {
    let (read, size) = model::read_list(list).unwrap_or_default();
    let loads = read.iter().filter(|l| matches!(l.opcode, 0x11 | 0x12));
    let mut room = Room {
        samples: 2 * model::LINES,
        cells: 2 * SLOTS,
        out: model::BUFFER,
        left: 4 + rng.below(3),
    };
    match rng.below(10) {
        0 => room.samples = about(rng, 2 * takes),
        1 => room.cells = about(rng, 2 * size),
        2 => room.out = about(rng, 7 * loads.count()),
        3 => room.left = about(rng, 4),
        _ => {}
    }
    room
}

pub fn case(rng: &mut Rng) -> Case {
    let list = lists::sampled(rng);
    let takes = list.split(|b| *b == b'\n').filter(|l| l.starts_with(b"14"));
    let takes = takes.count();
    let recording = recording(rng, takes);
    let first = match rng.below(25) {
        0 => (RECORDING_LINES - rng.below(6)) as u64,
        1 => state(rng),
        _ => 0,
    };
    Case {
        cuts: cuts(rng, recording.len()),
        room: room(rng, &list, takes),
        list,
        first,
        recording,
    }
}

/// A number near to what a reader's state is: column, value and line, each mostly in its limits.
fn state(rng: &mut Rng) -> u64 {
    let column = rng.below(9) as u64;
    let digits = 4 * column.saturating_sub(2).min(4);
    let value = match rng.below(6) {
        0 => rng.draw() & 0xffff,
        _ => rng.draw() & ((1 << digits) - 1),
    };
    let line = match rng.below(4) {
        0 => RECORDING_LINES as u64 - rng.below(3) as u64,
        1 => rng.draw() & 0xffff_ffff,
        _ => rng.below(5) as u64,
    };
    match rng.below(8) {
        0 => rng.draw(),
        _ => (column << 48) + (value << 32) + line,
    }
}
