//! Damaged texts: a good script with a few bytes changed, titles that are none, and texts about the limits of lines and bytes; and every short text
//! of some lines, most of which are refused or can't be read.

use crate::random;
use crate::rng::Rng;

/// Bytes that a careless reader may take for something else.
const ODD: &[u8] = b"\n\n0f9aA FgG\r\t\0\x7f\x80\xff:/`@x9";

/// Titles, and lines that are near to one.
const TITLES: [&[u8]; 8] = [
    b"f00002\n",
    b"f00002\n",
    b"f00002\n",
    b"f00003\n",
    b"f00102\n",
    b"f0\n",
    b"f000020000\n",
    b"f00002",
];

/// Frames that no script has a scope, a handle, a name or a need for.
const REFUSED: [&[u8]; 5] = [
    b"02ffff\n",
    b"0cffff\n",
    b"10ffff00ff\n",
    b"12ffff\n",
    b"25ffff\n",
];

/// Lines that are taken or refused, and lines that can't be read: which of two comes first?
pub const LINES: [&[u8]; 12] = [
    b"06\n",
    b"0c0000\n",
    b"1000000007\n",
    b"05\n",
    b"200000\n",
    b"f00002\n",
    b"0C0000\n",
    b"0c000\n",
    b"0c00000000\n",
    b"zz\n",
    b"\n",
    b"06",
];

fn place(rng: &mut Rng, text: &[u8]) -> usize {
    match rng.once_in(4) {
        true => text.len().saturating_sub(1 + rng.below(4)),
        false => rng.below(text.len()),
    }
}

pub fn damage_once(rng: &mut Rng, text: &mut Vec<u8>) {
    let at = place(rng, text);
    let odd = ODD[rng.below(ODD.len())];
    match rng.below(8) {
        _ if text.is_empty() => text.push(odd),
        0 => text[at] = odd,
        1 => text[at] ^= 1 << rng.below(8),
        2 => text.insert(at, odd),
        3 => {
            text.remove(at);
        }
        4 => text.truncate(at),
        5 => text[at] = text[at].to_ascii_uppercase(),
        6 => text.extend_from_slice(b"0f"),
        _ => {
            let line = text[at..].to_vec();
            text.extend_from_slice(&line[..line.len().min(9)]);
        }
    }
}

/// A frame that is refused, before one of the lines or behind the last.
fn refuse_one(rng: &mut Rng, text: &mut Vec<u8>) {
    let lines: Vec<&[u8]> = text.split_inclusive(|b| *b == b'\n').collect();
    let at = lines[..rng.below(lines.len() + 1)].concat().len();
    let frame = REFUSED[rng.below(REFUSED.len())];
    text.splice(at..at, frame.iter().copied());
}

/// Every text of up to so many of `LINES`, as long as they are wanted.
pub fn every(longest: usize, offer: &mut dyn FnMut(Vec<u8>) -> bool) {
    let mut texts = vec![Vec::new()];
    for _ in 0..longest {
        let longer = |text: &Vec<u8>| LINES.map(|line| [text, line].concat());
        texts = texts.iter().flat_map(longer).collect();
        for text in &texts {
            if !offer(text.clone()) {
                return;
            }
        }
    }
}

/// A title, or what is near to one: mostly as the first line, else as one of the next.
pub fn entitle(rng: &mut Rng, text: &mut Vec<u8>) {
    let title = TITLES[rng.below(TITLES.len())];
    let lines: Vec<&[u8]> = text.split_inclusive(|b| *b == b'\n').collect();
    let before = match rng.once_in(4) {
        true => rng.below(lines.len().min(3) + 1),
        false => 0,
    };
    let at = lines[..before].concat().len();
    text.splice(at..at, title.iter().copied());
}

/// Lines and bytes about the limits.
fn at_the_limits(rng: &mut Rng) -> Vec<u8> {
    let lines = model::LINES - 2 + rng.below(4);
    let mut text = match rng.below(3) {
        0 => b"0f\n".repeat(lines),
        1 => b"080000\n".repeat(lines),
        _ => b"0".repeat(model::BUFFER - 2 + rng.below(4)),
    };
    if rng.once_in(2) {
        text.splice(..0, TITLES[0].iter().copied());
    }
    if rng.once_in(2) {
        let end = text.len();
        text.truncate(end - rng.below(3));
    }
    text
}

pub fn text(rng: &mut Rng) -> Vec<u8> {
    let mut text = match rng.below(20) {
        0 => at_the_limits(rng),
        1..5 => random::tight(rng).text(),
        _ => random::any(rng).text(),
    };
    if rng.once_in(8) {
        entitle(rng, &mut text);
    }
    if rng.once_in(4) {
        refuse_one(rng, &mut text);
    }
    for _ in 0..rng.below(4) {
        damage_once(rng, &mut text);
    }
    text
}
