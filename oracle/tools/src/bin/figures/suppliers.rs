//! Lists from elsewhere: what yes or no takes, beside the translation of the same script.

use crate::shown::{bytes, ns, ratio};
use model::{Frame, Script, LINES};
use oracle::figures::clock;
use oracle::figures::work::KINDS;
use oracle::placements::{supplied, PLACEMENTS};
use oracle::rng::Rng;
use std::hint::black_box;

/// Which placement the supplier's lists are by.
const PLACED: usize = 3;

fn yes(script: &[u8], list: &[u8]) -> u64 {
    u64::from(mboxalind::agrees(black_box(script), list).expect("two texts"))
}

/// Nanoseconds of a translation, and of yes to our own list and to the supplier's.
fn agreed(frames: &[Frame], list: &mut [u8]) -> [f64; 3] {
    let script = Frame::script(frames);
    let written = bytes(mboxalind::translate(&script, list)) as usize;
    let (own, placement) = (list[..written].to_vec(), Default::default());
    let frames = frames.to_vec();
    let placed = Script { placement, frames };
    let other = supplied(&mut Rng::new(1), &placed, PLACEMENTS[PLACED].1);
    let other = model::write_list(&other.lines, other.size);
    assert_eq!((yes(&script, &own), yes(&script, &other)), (1, 1));
    let best = clock::best(&mut [
        &mut || bytes(mboxalind::translate(black_box(&script), list)),
        &mut || yes(&script, &own),
        &mut || yes(&script, &other),
    ]);
    [best[0], best[1], best[2]]
}

pub fn print() {
    let placed = PLACEMENTS[PLACED].0;
    println!("\n## Yes or no to a list from elsewhere\n");
    println!("`agrees` of a script of {LINES} frames with our own list, and with one whose placement is \"{placed}\" (`oracle/tools/src/placements.rs`): both get a yes.");
    println!("Nanoseconds a frame; in brackets, times our translation of the script.\n");
    println!("| script | translation | yes to our list | yes to the other |\n|---|---|---|---|");
    let mut list = vec![0; model::BUFFER];
    for (name, frames) in KINDS {
        let each = agreed(&frames(LINES), &mut list).map(|t| t / LINES as f64);
        let [translation, own, other] = each;
        println!(
            "| {name} | {} | {} ({}) | {} ({}) |",
            ns(translation),
            ns(own),
            ratio(own, translation),
            ns(other),
            ratio(other, translation)
        );
    }
}
