//! `run_recorded`, as a host calls it: samples in order, each refusal and their order, lent memory, the model beside it; and `Recording`.

mod common;

use common::{of_model, refused, stored};
use mboxalind::{run, run_recorded, Answer, Ran, Recording, Refusal, CELLS, MOST_SAMPLES};
use model::LINES;

/// What is lent, in bytes.
#[derive(Clone, Copy)]
struct Room {
    samples: usize,
    cells: usize,
    out: usize,
    left: usize,
}

const PLENTY: Room = Room {
    samples: 2 * MOST_SAMPLES,
    cells: 2 * CELLS + 2,
    out: 20_000,
    left: 6,
};

/// The answer and all that was lent afterwards. It is the model's, and a refusal changes nothing.
#[track_caller]
fn run_over(list: &[u8], state: u64, samples: &[u8], room: Room) -> (Answer, [Vec<u8>; 3]) {
    let lent = [room.cells, room.out, room.left].map(|bytes| vec![0x5a; bytes]);
    let [mut cells, mut out, mut left] = lent.clone();
    let [mut c, mut o, mut l] = lent.clone();
    let answer = run_recorded(list, state, samples, &mut cells, &mut out, &mut left);
    let theirs = model::Lent {
        cells: &mut c,
        out: &mut o,
        left: &mut l,
    };
    let theirs = of_model(model::run_recorded(list, state, samples, theirs));
    assert_eq!(answer, theirs);
    assert!(cells == c && out == o && left == l);
    if matches!(answer, Answer::Refused(_)) {
        assert!([&cells, &out, &left] == lent.each_ref());
    }
    (answer, [cells, out, left])
}

/// Beside a recording, of which so many bytes of samples are kept.
#[track_caller]
fn beside(list: &[u8], recording: &[u8], room: Room) -> (Answer, [Vec<u8>; 3]) {
    let mut samples = vec![0; room.samples];
    let state = mboxalind::read_recording(0, &mut samples, recording);
    run_over(list, state, &samples, room)
}

#[test]
fn samples_in_order_each_used_once() {
    let list = b"140000\n110000\n140001\n1000020009\n140000\n110000\n110001\n900003\n";
    let recording = b"30ffff\n300000\n300001\n30abcd\n";
    let room = Room {
        samples: 6,
        cells: 8,
        out: 22,
        left: 5,
    };
    let (answer, [cells, out, left]) = beside(list, recording, room);
    assert_eq!(answer, Answer::Written(21));
    assert_eq!(cells, [0, 1, 0, 0, 0, 9, 0x5a, 0x5a]);
    assert_eq!(out, b"a0ffff\na00001\na00000\nZ");
    assert_eq!(left, [0, 0, 0, 1, 0x5a]);
}

/// From the first refusal to the last: what would be refused later is wrong too.
#[test]
fn order_of_refusals() {
    let none = Room {
        samples: 0,
        cells: 0,
        out: 0,
        left: 0,
    };
    let answer = |list, state| run_over(list, state, &[], none).0;
    let (no_state, malformed) = (1 << 32, (7 << 48) + 9);
    let many = b"05\n".repeat(LINES + 1);
    assert_eq!(answer(b"zz\n", no_state), refused(29, 0));
    assert_eq!(answer(b"140001\nzz\n900001\n", malformed), refused(1, 1));
    assert_eq!(answer(&many, malformed), refused(2, LINES as u32));
    assert_eq!(
        answer(b"140000\n140001\n900001\n", malformed),
        refused(20, 1)
    );
    assert_eq!(
        answer(b"140000\n110000\n900001\n", malformed),
        refused(24, 9)
    );
    // .. also where the samples before it are too few
    assert_eq!(answer(b"140000\n900001\n", 7 << 48), refused(24, 0));
    assert_eq!(answer(b"900000\n", malformed), refused(24, 9));
    assert_eq!(answer(b"05\n140000\n110000\n900001\n", 0), refused(23, 1));
    assert_eq!(
        answer(b"140000\n0f0000\n140000\n900001\n", 1),
        refused(23, 2)
    );
    assert_eq!(answer(b"140000\n110000\n900001\n", 1), refused(17, 0));
    assert_eq!(answer(b"900000\n", 0), refused(17, 0));
}

/// A line that was begun and not ended, at every column; and 24 shows a line of 32 bits.
#[test]
fn a_torn_last_line() {
    for length in 1..7 {
        let torn = [b"300001\n", &b"300002"[..length]].concat();
        assert_eq!(beside(b"140000\n900001\n", &torn, PLENTY).0, refused(24, 1));
    }
    let torn = (1 << 48) + 4_294_967_294;
    assert_eq!(
        run_over(b"900000\n", torn, &[], PLENTY).0,
        refused(24, 4_294_967_294)
    );
    let malformed = (7 << 48) + 4_294_967_295;
    let line = 4_294_967_295;
    assert_eq!(
        run_over(b"900000\n", malformed, &[], PLENTY).0,
        refused(24, line)
    );
}

/// One byte less of anything is 17; one more changes nothing else.
#[test]
fn rooms() {
    let list = b"140000\n140001\n110000\n900002\n";
    let recording = b"300001\n300002\n300003\n";
    let just = Room {
        samples: 4,
        cells: 4,
        out: 7,
        left: 4,
    };
    for more in 0..3 {
        let room = Room {
            samples: 4 + more,
            cells: 4 + more,
            out: 7 + more,
            left: 4 + more,
        };
        let (answer, [cells, out, left]) = beside(list, recording, room);
        assert_eq!(answer, Answer::Written(7));
        assert_eq!(
            (&cells[..4], &left[..4]),
            (&[0, 1, 0, 2][..], &[0, 0, 0, 1][..])
        );
        assert_eq!(&out[..7], b"a00001\n");
        let beyond = cells[4..].iter().chain(&out[7..]).chain(&left[4..]);
        assert!(beyond.into_iter().all(|b| *b == 0x5a));
    }
    let less = [
        Room { samples: 3, ..just },
        Room { cells: 3, ..just },
        Room { out: 6, ..just },
        Room { left: 3, ..just },
    ];
    for room in less {
        assert_eq!(beside(list, recording, room).0, refused(17, 0));
    }
}

/// The number left over is of the recording's lines, however few are kept.
#[test]
fn left_over_of_all_lines() {
    let left = |state, takes: usize| {
        let list = [&b"140000\n".repeat(takes)[..], b"900001\n"].concat();
        let (answer, [_, _, left]) = run_over(&list, state, &[0; 6], PLENTY);
        assert_eq!(answer, Answer::Written(0));
        u32::from_be_bytes([left[0], left[1], left[2], left[3]])
    };
    assert_eq!(left(4_294_967_295, 0), 4_294_967_295);
    assert_eq!(left(4_294_967_295, 3), 4_294_967_292);
    assert_eq!(left(0x0102_0304, 1), 0x0102_0303);
    assert_eq!(left(3, 3), 0);
}

/// `run` is the same with no samples.
#[test]
fn without_a_recording() {
    let list = b"1000000007\n110000\n900001\n";
    let (mut cells, mut out) = ([1; 2], [1; 7]);
    assert_eq!(run(list, &mut cells, &mut out), Answer::Written(7));
    let (answer, lent) = beside(list, b"", PLENTY);
    assert_eq!((answer, &lent[1][..7]), (Answer::Written(7), &out[..]));
    let sampled = b"0f0000\n140000\n900001\n";
    assert_eq!(run(sampled, &mut cells, &mut out), refused(23, 1));
    assert_eq!(beside(sampled, b"", PLENTY).0, refused(23, 1));
}

/// The stored lists, their constants being samples: beside recordings that are too short, just enough and longer.
#[test]
fn the_stored_lists_with_samples() {
    let (mut ran, mut few) = (0, 0);
    for (_, list) in stored() {
        let text = String::from_utf8(list).expect("a list");
        let sampled = |line: &str| match line.strip_prefix("10") {
            Some(rest) if rest.len() == 8 => format!("14{}\n", &rest[..4]),
            _ => format!("{line}\n"),
        };
        let list: String = text.lines().map(sampled).collect();
        let takes = list.lines().filter(|l| l.starts_with("14")).count();
        for samples in [takes.saturating_sub(1), takes, takes + 3] {
            let line = |i: usize| format!("30{:04x}\n", i * 40_503 % 65_536);
            let recording: String = (0..samples).map(line).collect();
            match beside(list.as_bytes(), recording.as_bytes(), PLENTY).0 {
                Answer::Written(_) => ran += 1,
                Answer::Refused(r) => few += u32::from(r.number == 23),
            }
        }
    }
    assert!(ran > 500 && few > 30, "{ran}, {few}");
}

#[test]
fn a_recording_that_is_fed() {
    let list = b"140000\n110000\n140000\n110000\n900001\n";
    let mut recording = Recording::default();
    let (mut cells, mut out) = ([0; 2], [0; 14]);
    for part in [&b"30ff"[..], b"fe\n300", b"", b"003\n300009\n"] {
        recording.feed(part);
    }
    assert_eq!((recording.lines(), recording.malformed()), (3, None));
    assert!(recording.samples().eq([0xfffe, 3, 9]));
    let ran = recording.run(list, &mut cells, &mut out);
    assert_eq!(ran, Ok(Ran { bytes: 14, left: 1 }));
    assert_eq!(&out, b"a0fffe\na00003\n");
    // a torn line is no sample yet
    recording.feed(b"3000");
    let torn = Err(Refusal {
        number: 24,
        line: 3,
    });
    assert_eq!(recording.run(list, &mut cells, &mut out), torn);
    assert_eq!(recording.malformed(), None);
    recording.feed(b"x");
    assert_eq!((recording.lines(), recording.malformed()), (3, Some(3)));
}

#[test]
fn a_recording_that_keeps_few() {
    let mut recording = Recording::keeping(1);
    recording.feed(b"300001\n300002\n300003\n");
    assert!(recording.samples().eq([1]));
    let (mut cells, mut out) = ([0; 2], []);
    let one = recording.run(b"140000\n900001\n", &mut cells, &mut out);
    assert_eq!(one, Ok(Ran { bytes: 0, left: 2 }));
    let two = recording.run(b"140000\n140000\n900001\n", &mut cells, &mut out);
    assert_eq!(
        two,
        Err(Refusal {
            number: 17,
            line: 0
        })
    );
}
