//! Prints docs/FIGURES.md: ours, linked, beside the original in the same run. See oracle/README.md.

mod editions;
mod recordings;
mod runs;
mod shown;
mod suppliers;

use model::Frame;
use oracle::figures::work::{KINDS, LENGTHS, STRIDES};
use oracle::figures::{clock, setting};
use oracle::linked_checks::{checks, pairs_of_entries};
use oracle::linked_slots::{pairs_by_value, pairs_lent};
use rune::{Bare, Lean};
use shown::{bytes, ns, ratio};
use std::hint::black_box;

const PAIRS: usize = 1_000_000;

fn pairs() {
    println!("\n## A million insert and remove pairs over a half-full frame\n");
    println!("Nanoseconds a pair: an occupied slot is removed and one inserted; in brackets, times the original. By value each operation is a");
    println!("call of the public entry (`slots::remove`, `slots::insert`), which checks the state first. Lent: the state goes in by value");
    println!("once, and a loop lends its halves to the same leaves. Both sums are proved to be the rules' (crate `bare`).\n");
    println!("| slots in turn | original | ours, a call by value for each | ours, halves lent |");
    println!("|---|---|---|---|");
    for (stride, name) in STRIDES {
        let sum = Bare::pairs(PAIRS, stride);
        assert_eq!(sum, pairs_by_value(PAIRS, stride), "the sums differ");
        assert_eq!(sum, pairs_lent(PAIRS, stride), "the sums differ");
        let best = clock::best(&mut [
            &mut || Bare::pairs(PAIRS, black_box(stride)),
            &mut || pairs_by_value(PAIRS, black_box(stride)),
            &mut || pairs_lent(PAIRS, black_box(stride)),
        ]);
        let each: Vec<f64> = best.iter().map(|t| t / PAIRS as f64).collect();
        let [theirs, value, lent] = each[..] else {
            unreachable!()
        };
        println!(
            "| {name} | {} | {} ({}) | {} ({}) |",
            ns(theirs),
            ns(value),
            ratio(value, theirs),
            ns(lent),
            ratio(lent, theirs)
        );
    }
}

/// Nanoseconds of a translation: the original's and ours. Both lists have to be equal.
fn translated(script: &[u8], lean: &mut Lean, list: &mut [u8]) -> (f64, f64) {
    let theirs = lean
        .translate(script)
        .expect("the original takes the script")
        .to_vec();
    let written = bytes(mboxalind::translate(script, list)) as usize;
    assert!(theirs == list[..written], "the lists differ");
    let best = clock::best(&mut [
        &mut || {
            lean.translate(black_box(script))
                .map_or(0, |l| l.len() as u64)
        },
        &mut || bytes(mboxalind::translate(black_box(script), list)),
    ]);
    (best[0], best[1])
}

fn translation() {
    let (mut lean, mut list) = (Lean::default(), vec![0; model::BUFFER]);
    let (theirs, ours) = translated(b"", &mut lean, &mut list);
    println!("\n## Translation\n");
    println!("Nanoseconds a frame: original / ours, and the ratio. An empty script takes {} and {} nanoseconds in all.\n", ns(theirs), ns(ours));
    let heads: Vec<String> = LENGTHS.iter().map(|n| format!(" {n} frames |")).collect();
    println!("A script has 64 needs at most, so those with needs have one for every four frames up to 256, and then 64.\n");
    println!("| script |{}", heads.concat());
    println!("|---|{}", "---|".repeat(LENGTHS.len()));
    for (name, frames) in KINDS {
        let mut row = format!("| {name} |");
        for n in LENGTHS {
            let script = Frame::script(&frames(n));
            let (theirs, ours) = translated(&script, &mut lean, &mut list);
            let each = n as f64;
            row += &format!(
                " {} / {}, {} |",
                ns(theirs / each),
                ns(ours / each),
                ratio(ours, theirs)
            );
        }
        println!("{row}");
    }
}

const CHECKS: usize = 1000;

fn check() {
    assert_eq!(checks(CHECKS), CHECKS, "a full state is sound");
    let times = |n| checks(black_box(n)) as u64;
    let best = clock::best(&mut [&mut || times(0), &mut || times(CHECKS)]);
    println!("\n## The check of a state handed in\n");
    println!("Of a state that crate `checks` fills: 64 scopes in one line, 4,096 slots on one list, 256 names in one scope. Proved is that it is sound, and full.");
    println!("`soundness::is_sound` takes it by value.");
    println!("An entry of `allocator` takes a state by value, checks it and hands one on: a slot of the fresh state is allocated and freed, two calls.\n");
    println!("| ours | ns |\n|---|---|");
    println!(
        "| a check of the full state | {} |",
        ns((best[1] - best[0]) / CHECKS as f64)
    );
    assert_eq!(pairs_of_entries(CHECKS), CHECKS, "no call is refused");
    let times = |n| pairs_of_entries(black_box(n)) as u64;
    let best = clock::best(&mut [&mut || times(0), &mut || times(CHECKS)]);
    println!(
        "| `addresses::alloc` and `addresses::free` | {} |",
        ns((best[1] - best[0]) / CHECKS as f64)
    );
}

const HEAD: &str = "\
# Figures

What `bin/figures` printed on the machine named below, for the build that ships; `bin/figures > docs/FIGURES.md` makes the page again.

Ours are the proved functions, linked into the same program as the original; each number is processor time, the best of up
to 25 rounds (of 5 at least) in each of which every side has its turn. Before a figure is taken, both sides' results are compared: sums, list bytes, cells.

The original is driven by `oracle/rune/src/v1/lean.rs`: its own `Scopes`, `Address`, `Linear` and `Any` and nothing beside them, with a plain reader of
the same text and a plain writer of the same list. Buffers (its frames and list, our lent list of 57,344 bytes, cells and output) are
made and written once before and used again; scopes and handles are made anew for each script on both sides. The original's
collections are the standard library's, with a cheap hash for names.
";

fn main() {
    println!("{HEAD}");
    println!("- load of the machine when it began: {}", setting::load());
    setting::lines().iter().for_each(|line| println!("{line}"));
    pairs();
    translation();
    editions::print();
    runs::print();
    suppliers::print();
    recordings::print();
    check();
    println!("\nLoad of the machine when it ended: {}.", setting::load());
}
