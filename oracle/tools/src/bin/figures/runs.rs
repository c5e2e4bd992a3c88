//! Runs of lists: our frame machine beside one in plain Rust.

use crate::shown::{bytes, ns, ratio};
use model::LINES;
use oracle::figures::work::{self, LISTS};
use oracle::figures::{clock, plain::Machine};
use std::hint::black_box;

/// Nanoseconds of a run: plain Rust's and ours. Cells and output have to be equal.
fn ran(list: &[u8]) -> [f64; 2] {
    let (mut cells, mut out) = (vec![0; 2 * model::SLOTS], vec![0; model::BUFFER]);
    let (mut theirs, mut other) = (cells.clone(), out.clone());
    let mut machine = Machine::default();
    let plain = machine.run(list, &mut theirs, &mut other);
    let written = bytes(mboxalind::run(list, &mut cells, &mut out));
    assert_eq!(plain, Some(written as usize));
    assert!(cells == theirs && out == other, "the runs differ");
    let best = clock::best(&mut [
        &mut || {
            machine
                .run(black_box(list), &mut theirs, &mut other)
                .unwrap_or(0) as u64
        },
        &mut || bytes(mboxalind::run(black_box(list), &mut cells, &mut out)),
    ]);
    [best[0], best[1]]
}

/// Nanoseconds of our run beside samples. Cells and output have to be the model's.
fn ran_recorded(list: &[u8], samples: &[u8]) -> f64 {
    let (mut cells, mut out) = (vec![0; 2 * model::SLOTS], vec![0; model::BUFFER]);
    let (mut theirs, mut other) = (cells.clone(), out.clone());
    let state = samples.len() as u64 / 2;
    let lent = model::Lent {
        cells: &mut theirs,
        out: &mut other,
        left: &mut [0; 4],
    };
    let expected = model::run_recorded(list, state, samples, lent);
    let mut ours = || {
        let left = &mut [0; 4];
        let list = black_box(list);
        bytes(mboxalind::run_recorded(
            list, state, samples, &mut cells, &mut out, left,
        ))
    };
    assert_eq!(expected, Ok(ours() as usize));
    let best = clock::best(&mut [&mut ours]);
    assert!(cells == theirs && out == other, "the runs differ");
    best[0]
}

pub fn print() {
    println!("\n## A run: a store and a load in turn\n");
    println!("The original has no frame machine; the other side is one in plain Rust (`oracle/tools/src/figures/plain.rs`). A list has half as many cells as");
    println!("lines. Nanoseconds.\n");
    println!("| lines | plain Rust, a run | ours | plain Rust, a line | ours | ratio |\n|---|---|---|---|---|---|");
    for lines in LISTS {
        let [plain, ours] = ran(&work::list(lines));
        let each = lines as f64;
        println!(
            "| {lines} | {} | {} | {} | {} | {} |",
            ns(plain),
            ns(ours),
            ns(plain / each),
            ns(ours / each),
            ratio(ours, plain)
        );
    }
    // a sample of two bytes for every other line
    let samples: Vec<u8> = (0..LINES).map(|i| (i * 7 % 256) as u8).collect();
    let each = ran_recorded(&work::sampled_list(LINES), &samples) / LINES as f64;
    println!("\nOur `run_recorded`, where each of 1,024 stores is of a sample: {} nanoseconds a line of 2,048.", ns(each));
}
