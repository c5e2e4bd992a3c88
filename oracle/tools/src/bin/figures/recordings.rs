//! Recordings in parts: our reader beside two in plain Rust.

use crate::shown::ratio;
use oracle::figures::work::{self, PARTS};
use oracle::figures::{clock, readers::Reader};
use std::hint::black_box;

/// The state after all parts; samples are kept.
type Read = fn(&[&[u8]], &mut [u8]) -> u64;

fn by_bytes(parts: &[&[u8]], samples: &mut [u8]) -> u64 {
    let mut reader = Reader::default();
    for part in parts {
        reader.by_bytes(samples, black_box(part));
    }
    reader.state()
}

fn by_lines(parts: &[&[u8]], samples: &mut [u8]) -> u64 {
    let mut reader = Reader::default();
    for part in parts {
        reader.by_lines(samples, black_box(part));
    }
    reader.state()
}

fn ours(parts: &[&[u8]], samples: &mut [u8]) -> u64 {
    let feed = |state, part: &&[u8]| mboxalind::read_recording(state, samples, black_box(part));
    parts.iter().fold(0, feed)
}

const READERS: [Read; 3] = [by_bytes, by_lines, ours];

/// Nanoseconds of a whole recording, by each reader. States and samples have to be equal.
fn read(parts: &[&[u8]]) -> Vec<f64> {
    let mut rooms = [(); 3].map(|()| vec![0; 2 * model::LINES]);
    let mut states = [0; 3];
    for (i, read) in READERS.iter().enumerate() {
        states[i] = read(parts, &mut rooms[i]);
    }
    assert_eq!(states, [states[2]; 3]);
    assert!(
        rooms[0] == rooms[2] && rooms[1] == rooms[2],
        "the samples differ"
    );
    let [first, second, third] = &mut rooms;
    clock::best(&mut [
        &mut || by_bytes(parts, first),
        &mut || by_lines(parts, second),
        &mut || ours(parts, third),
    ])
}

pub fn print() {
    let recording = work::recording();
    println!("\n## A recording, read in parts\n");
    println!("Millions of bytes a second, of a recording of {} bytes; 2,048 samples are kept. Plain Rust by bytes is an automaton; by lines it takes a whole", recording.len());
    println!("line at a time where one lies there (`oracle/tools/src/figures/readers.rs`). The ratios are of times: below 1 ours is faster.\n");
    println!("| bytes of a part | plain Rust, by bytes | plain Rust, by lines | ours | ours to by bytes | ours to by lines |\n|---|---|---|---|---|---|");
    for length in PARTS {
        let parts: Vec<&[u8]> = recording.chunks(length).collect();
        let best = read(&parts);
        let speed = |taken: &f64| format!("{:.0}", recording.len() as f64 * 1000.0 / taken);
        let speeds: Vec<String> = best.iter().map(speed).collect();
        println!(
            "| {length} | {} | {} | {} |",
            speeds.join(" | "),
            ratio(best[2], best[0]),
            ratio(best[2], best[1])
        );
    }
}
