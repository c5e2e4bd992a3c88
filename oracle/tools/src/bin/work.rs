//! One side's work a number of times and nothing else, so that an emulator can count what it takes: work SIDE WHAT TIMES.
//! WHAT is the stride of pairs over bare slots (sides original, value, lent), or `kind` and the number of a script of 2,048 frames
//! (original, ours). `work names` has each WHAT with its name.

use model::Frame;
use oracle::figures::work::{KINDS, STRIDES};
use oracle::linked_slots::{pairs_by_value, pairs_lent};
use rune::{Bare, Lean};
use std::env;
use std::process::exit;

/// The sum of the addresses.
fn pairs(side: &str, stride: u16, times: usize) -> Option<u64> {
    match side {
        "original" => Some(Bare::pairs(times, stride)),
        "value" => Some(pairs_by_value(times, stride)),
        "lent" => Some(pairs_lent(times, stride)),
        _ => None,
    }
}

/// The bytes of all lists.
fn scripts(side: &str, kind: usize, times: usize) -> Option<u64> {
    let script = Frame::script(&KINDS.get(kind)?.1(model::LINES));
    let (mut lean, mut list) = (Lean::default(), vec![0; model::BUFFER]);
    let mut once = || match side {
        "original" => lean.translate(&script).map(|list| list.len()),
        "ours" => mboxalind::translate(&script, &mut list).written().ok(),
        _ => None,
    };
    (0..times).map(|_| once().map(|bytes| bytes as u64)).sum()
}

fn done(words: &[String]) -> Option<u64> {
    let [side, what, times] = words else {
        return None;
    };
    let times = times.parse().ok()?;
    match what.strip_prefix("kind") {
        Some(kind) => scripts(side, kind.parse().ok()?, times),
        None => pairs(side, what.parse().ok()?, times),
    }
}

fn names() {
    for (stride, name) in STRIDES {
        println!("{stride} {name}");
    }
    for (i, (name, _)) in KINDS.iter().enumerate() {
        println!("kind{i} {name}");
    }
}

fn main() {
    let words: Vec<String> = env::args().skip(1).collect();
    if words == ["names"] {
        return names();
    }
    match done(&words) {
        Some(number) => println!("{number}"),
        None => {
            eprintln!("usage: work SIDE WHAT TIMES | work names");
            exit(2)
        }
    }
}
