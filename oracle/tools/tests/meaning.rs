//! W-205, demand 3 by chance: a script that is accepted, translated and run beside a recording with samples enough, loads what it means "with
//! those samples in order, each used once", if each allocation had a box of its own. W-211: so it does in either edition.

use model::Script;
#[cfg(feature = "linked")]
use model::{BUFFER, SLOTS};
use oracle::meaning::meaning;
use oracle::random;
use oracle::rng::Rng;

/// What a host prints that translates the script and runs its list beside the recording.
fn printed(script: &[u8], recording: &[u8]) -> Vec<u8> {
    model::recorded_runner(&model::translator(script), recording)
}

/// The same by the linked functions, the recording in parts.
#[cfg(feature = "linked")]
fn printed_linked(script: &[u8], recording: &[u8]) -> Vec<u8> {
    let (mut list, mut cells, mut out) = (vec![0; BUFFER], vec![0; 2 * SLOTS], vec![0; BUFFER]);
    let bytes = mboxalind::translate(script, &mut list).written();
    let bytes = bytes.expect("an accepted script");
    let mut fed = mboxalind::Recording::default();
    recording.chunks(11).for_each(|part| fed.feed(part));
    let ran = fed.run(&list[..bytes], &mut cells, &mut out);
    let ran = ran.expect("samples enough");
    out.truncate(ran.bytes);
    out.extend_from_slice(format!("a1{:08x}\n", ran.left).as_bytes());
    out
}

/// Scripts by chance in the edition they were made for.
fn load_what_they_mean(source: random::Source) {
    let (mut rng, mut told, mut loads) = (Rng::new(205), 0, 0);
    for _ in 0..2000 {
        let random::Made {
            placement, frames, ..
        } = source(&mut rng);
        let script = Script { placement, frames };
        let samples: Vec<u16> = (0..model::LINES).map(|_| rng.draw() as u16).collect();
        let Some((expected, taken)) = meaning(&script, &samples) else {
            continue;
        };
        let left = rng.below(5);
        let recording: String = samples[..model::LINES.min(taken + left)]
            .iter()
            .map(|v| format!("30{v:04x}\n"))
            .collect();
        let left = recording.len() / 7 - taken;
        let expected = format!("{expected}a1{left:08x}\n").into_bytes();
        let script = script.text();
        assert_eq!(printed(&script, recording.as_bytes()), expected);
        #[cfg(feature = "linked")]
        assert_eq!(printed_linked(&script, recording.as_bytes()), expected);
        told += usize::from(taken > 0);
        loads += expected.len() / 7;
    }
    assert!(told > 250 && loads > 5_000, "{told}, {loads}");
}

#[test]
fn scripts_with_samples_load_what_they_mean() {
    load_what_they_mean(random::with_samples);
}

#[test]
fn scripts_of_edition_2_load_what_they_mean() {
    load_what_they_mean(random::tight);
}
