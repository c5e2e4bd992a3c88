//! The two editions: how large their frames are, and how long a script takes in either.

use crate::shown::{bytes, ns, ratio};
use model::{Frame, Script, LINES};
use oracle::editions::{self, Sizes};
use oracle::figures::clock;
use oracle::figures::work::KINDS;
use oracle::rng::Rng;
use oracle::{random, records};
use rune::Lean;
use std::hint::black_box;

const BY_CHANCE: usize = 20_000;

/// The frames of all stored scripts, of either edition.
fn stored() -> Vec<Vec<Frame>> {
    let read = |script: Vec<u8>| model::read_script(&script, None).ok();
    let scripts = records::stored_scripts().into_iter().filter_map(read);
    scripts.map(|script| script.frames).collect()
}

fn by_chance(source: random::Source) -> Sizes {
    let mut rng = Rng::new(1);
    editions::sizes((0..BY_CHANCE).map(|_| source(&mut rng).frames))
}

fn sizes() {
    println!("\n## Frame sizes of the two editions\n");
    println!("The same frames without and with the title, by the model, where both editions take them; 20,000 scripts of each kind by chance, seed 1.\n");
    println!("| scripts | taken by both | smaller in edition 2 | larger | slots of all frames, edition 1 | edition 2 | the largest saving |");
    println!("|---|---|---|---|---|---|---|");
    let rows = [
        ("stored", editions::sizes(stored().into_iter())),
        ("by chance", by_chance(random::script)),
        ("by chance, with needs", by_chance(random::with_needs)),
        ("by chance, with samples", by_chance(random::with_samples)),
    ];
    for (name, sizes) in rows {
        let (scripts, smaller, larger) = (sizes.scripts, sizes.smaller, sizes.larger);
        let (first, second) = (sizes.first, sizes.second);
        let less = 100.0 - second as f64 * 100.0 / first as f64;
        let (from, to) = sizes.most;
        println!("| {name} | {scripts} | {smaller} | {larger} | {first} | {second} ({less:.1} % fewer) | from {from} to {to} |");
    }
}

/// Nanoseconds of the frames: the original's and ours in edition 1, ours in edition 2. Lists are the original's and the model's.
fn translated(frames: &[Frame], lean: &mut Lean, list: &mut [u8]) -> [f64; 3] {
    let (first, second) = (Frame::script(frames), Script::tight(frames).text());
    let theirs = lean.translate(&first).map(<[u8]>::to_vec);
    for (script, expected) in [
        (&first, theirs),
        (&second, Some(model::translator(&second))),
    ] {
        let written = bytes(mboxalind::translate(script, list)) as usize;
        assert!(
            expected.as_deref() == Some(&list[..written]),
            "the lists differ"
        );
    }
    let mut other = vec![0; list.len()];
    let best = clock::best(&mut [
        &mut || {
            let list = lean.translate(black_box(&first));
            list.map_or(0, |l| l.len() as u64)
        },
        &mut || bytes(mboxalind::translate(black_box(&first), list)),
        &mut || bytes(mboxalind::translate(black_box(&second), &mut other)),
    ]);
    [best[0], best[1], best[2]]
}

fn times() {
    let (mut lean, mut list) = (Lean::default(), vec![0; model::BUFFER]);
    let frames = LINES - 1;
    println!("\n## Translation in the two editions\n");
    println!("Nanoseconds a frame of {frames}, behind a title or not. The original knows edition 1 only.\n");
    println!("| script | original, edition 1 | ours, edition 1 | ours, edition 2 | edition 2 to edition 1 | edition 2 to the original |");
    println!("|---|---|---|---|---|---|");
    for (name, of) in KINDS {
        let [theirs, first, second] = translated(&of(LINES)[..frames], &mut lean, &mut list);
        let each = |taken: f64| ns(taken / frames as f64);
        println!(
            "| {name} | {} | {} | {} | {} | {} |",
            each(theirs),
            each(first),
            each(second),
            ratio(second, first),
            ratio(second, theirs)
        );
    }
}

pub fn print() {
    sizes();
    times();
}
