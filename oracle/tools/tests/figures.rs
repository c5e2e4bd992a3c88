//! What is measured is the same work: the original by itself gives the list that the driver with its books gives, and the model's.

use model::Frame;
use oracle::figures::plain::Machine;
use oracle::figures::readers::Reader;
use oracle::figures::work::{self, KINDS, LENGTHS, LISTS, PARTS};
use oracle::random;
use oracle::rng::Rng;
use rune::{drive, Lean};

#[test]
fn scripts_of_every_kind() {
    let mut lean = Lean::default();
    for (name, frames) in KINDS {
        for n in LENGTHS {
            let frames = frames(n);
            assert_eq!(frames.len(), n, "{name}");
            let script = Frame::script(&frames);
            let list = model::translator(&script);
            assert!(!list.starts_with(b"ee"), "{name}, {n}");
            assert_eq!(lean.translate(&script), Some(&list[..]), "{name}, {n}");
        }
    }
}

#[test]
fn scripts_by_chance() {
    let (mut lean, mut rng, mut taken) = (Lean::default(), Rng::new(3), 0);
    for _ in 0..500 {
        let frames = random::any(&mut rng).frames;
        let driven = drive(&frames);
        let list = lean.translate(&Frame::script(&frames));
        assert_eq!(list.is_some(), driven.stop.is_none());
        if let Some(list) = list {
            assert_eq!(list, driven.list);
            taken += 1;
        }
    }
    assert!(taken > 200);
}

#[test]
fn the_lists() {
    for lines in LISTS {
        let list = work::list(lines);
        let (mut cells, mut out) = (vec![7; 2 * model::SLOTS], vec![7; 8000]);
        let (mut theirs, mut other) = (cells.clone(), out.clone());
        let written = Machine::default().run(&list, &mut cells, &mut out);
        assert_eq!(written, model::run(&list, &mut theirs, &mut other).ok());
        assert_eq!(written, Some(lines / 2 * 7));
        assert!(cells == theirs && out == other);
        // the same with samples is refused without them
        let sampled = work::sampled_list(lines);
        assert_eq!(Machine::default().run(&sampled, &mut cells, &mut out), None);
        let refusal = model::run(&sampled, &mut theirs, &mut other);
        assert_eq!(refusal.map_err(|r| r.number), Err(23));
    }
}

/// Both plain readers, on recordings that are good, damaged and torn, in parts of each length of the figures and some about a line.
#[test]
fn the_readers() {
    let whole = &work::recording()[..7 * 700];
    let mut rng = Rng::new(205);
    for round in 0..40 {
        let mut recording = whole.to_vec();
        if round > 0 {
            let at = rng.below(recording.len());
            recording[at] = b"0aA\n\r3x"[round % 7];
            recording.truncate(whole.len() - rng.below(9));
        }
        for length in PARTS.into_iter().chain([2, 6, 8, 13, 14, 15]) {
            let mut lent = [vec![7; 101], vec![7; 101], vec![7; 101]];
            let [first, second, third] = &mut lent;
            let (mut by_bytes, mut by_lines) = (Reader::default(), Reader::default());
            let mut state = 0;
            for part in recording.chunks(length) {
                by_bytes.by_bytes(first, part);
                by_lines.by_lines(second, part);
                state = model::read_recording(state, third, part);
                assert_eq!([by_bytes.state(), by_lines.state()], [state; 2]);
            }
            assert!(lent[0] == lent[1] && lent[0] == lent[2]);
        }
    }
}
