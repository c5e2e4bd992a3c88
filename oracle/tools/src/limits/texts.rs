//! Scripts and lists of a given length.

use crate::rng::Rng;
use crate::sessions;
use model::{BUFFER, BUFFER_BEFORE, LINES, SLOTS};
use std::ops::RangeInclusive;

/// Up to three bytes on either side.
fn about(limit: usize) -> RangeInclusive<usize> {
    limit - 3..=limit + 3
}

/// How long the texts are.
pub fn lengths() -> impl Iterator<Item = usize> {
    about(BUFFER_BEFORE).chain(about(BUFFER))
}

fn zeros(_: &mut Rng, bytes: usize) -> Vec<u8> {
    vec![b'0'; bytes]
}

/// Some frames, then a line that is no frame.
fn long_line(rng: &mut Rng, bytes: usize) -> Vec<u8> {
    let mut text = b"0f\n".repeat(rng.below(LINES));
    text.resize(bytes - 1, b'0');
    text.push(b'\n');
    text
}

fn short_lines(_: &mut Rng, bytes: usize) -> Vec<u8> {
    let mut text = b"0f\n".repeat(bytes.div_ceil(3));
    text.truncate(bytes);
    text
}

/// A drain has 7 bytes and 4 for each address.
const DRAIN: usize = 7;
/// A line that is an opcode alone.
const SHORT: &str = "0c\n";

fn drain(rng: &mut Rng, addresses: usize) -> String {
    let mut line = format!("0f{addresses:04x}");
    for _ in 0..addresses {
        line += &format!("{:04x}", rng.below(1 << 16));
    }
    line + "\n"
}

/// Lines of so many bytes in all that a run passes over. Each length here is 3 more than a multiple of 4, so up to three short ones give what drains can't.
fn passed_over(rng: &mut Rng, bytes: usize) -> String {
    let drains = 1 + rng.below(3);
    let short = (4 - (bytes + drains) % 4) % 4;
    let mut left = (bytes - DRAIN * drains - SHORT.len() * short) / 4;
    let mut lines = SHORT.repeat(short);
    for more in (0..drains).rev() {
        let addresses = match more {
            0 => left,
            _ => rng.below(left + 1),
        };
        lines += &drain(rng, addresses);
        left -= addresses;
    }
    lines
}

/// A list of so many bytes that begins with a line and loads cell 0 at its end.
fn loads_last(rng: &mut Rng, bytes: usize, begins: &str) -> Vec<u8> {
    let ends = "110000\n900001\n";
    let lines = passed_over(rng, bytes - begins.len() - ends.len());
    [begins, &lines, ends].concat().into_bytes()
}

/// .. that is taken: what is stored first is loaded last.
pub fn whole(rng: &mut Rng, bytes: usize) -> Vec<u8> {
    let stores = format!("100000{:04x}\n", rng.below(1 << 16));
    loads_last(rng, bytes, &stores)
}

/// .. what is stored is a sample.
fn sampled(rng: &mut Rng, bytes: usize) -> Vec<u8> {
    loads_last(rng, bytes, "140000\n")
}

/// A whole list without its last LF.
fn torn(rng: &mut Rng, bytes: usize) -> Vec<u8> {
    let mut list = whole(rng, bytes + 1);
    list.pop();
    list
}

pub type Kind = (&'static str, fn(&mut Rng, usize) -> Vec<u8>);

pub const SCRIPTS: [Kind; 3] = [
    ("a line of zeros", zeros),
    ("frames and a long line", long_line),
    ("short lines", short_lines),
];

pub const LISTS: [Kind; 7] = [
    ("a line of zeros", zeros),
    ("a list", whole),
    ("a list with a sample", sampled),
    ("a torn list", torn),
    ("a list and a byte", |rng, n| {
        [&whole(rng, n)[..], b"0"].concat()
    }),
    ("a list and a line", |rng, n| {
        [&whole(rng, n)[..], b"0f0000\n"].concat()
    }),
    ("a list and another", |rng, n| {
        [&whole(rng, n)[..], b"900000\n"].concat()
    }),
];

/// A text and what it is called.
pub type Named = (String, Vec<u8>);

/// Each kind at each length, and the name of both. What goes on behind a list isn't counted.
pub fn texts(rng: &mut Rng, kinds: &[Kind]) -> Vec<Named> {
    let mut all = Vec::new();
    for bytes in lengths() {
        for (name, made) in kinds {
            all.push((format!("{name}, {bytes} bytes"), made(rng, bytes)));
        }
    }
    all
}

/// Two runs, each closed and drained, and some drains of nothing between them.
fn drained_twice(first: usize, nothing: usize, second: usize) -> Vec<u8> {
    let drains = "0f\n".repeat(nothing);
    format!("01\n08{first:04x}\n020001\n0f\n{drains}08{second:04x}\n05\n0f\n").into_bytes()
}

/// A script whose list has so many bytes: all slots are drained, then some, and up to three drains of nothing give what addresses can't.
fn giving(bytes: usize) -> Vec<u8> {
    let left = bytes - model::translator(&drained_twice(0, 0, 0)).len();
    let nothing = 3 * left % 4;
    let addresses = (left - DRAIN * nothing) / 4;
    drained_twice(SLOTS, nothing, addresses - SLOTS)
}

/// Scripts whose lists are about as long as the limit before W-206, all slots drained twice, and those with the longest lists: none is as long as a buffer.
pub fn long_scripts() -> Vec<Vec<u8>> {
    let mut all: Vec<Vec<u8>> = about(BUFFER_BEFORE).map(giving).collect();
    all.push(drained_twice(SLOTS, 0, SLOTS));
    let [.., longest_of_edition_2] = sessions::long_edition_2();
    all.extend([sessions::longest(), longest_of_edition_2]);
    all
}
