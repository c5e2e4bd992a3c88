//! `read_recording`, as a host calls it: every cut, every column, every kind of state, and the model beside it.

mod common;

use mboxalind::{read_recording, MOST_SAMPLES};

const NO_STATE: u64 = 29 << 32;

fn malformed(line: u64) -> u64 {
    (7 << 48) + line
}

/// The state after all parts and the lent samples; each step is the model's.
#[track_caller]
fn fed(first: u64, parts: &[&[u8]], bytes: usize) -> (u64, Vec<u8>) {
    let (mut samples, mut theirs) = (vec![0x5a; bytes], vec![0x5a; bytes]);
    let mut state = first;
    for part in parts {
        let expected = model::read_recording(state, &mut theirs, part);
        state = read_recording(state, &mut samples, part);
        assert_eq!((state, &samples), (expected, &theirs), "{part:?}");
    }
    (state, samples)
}

/// The parts between the places that are set bits.
fn cut(recording: &[u8], places: u32) -> Vec<&[u8]> {
    let mut parts = Vec::new();
    let mut begun = 0;
    for at in 1..recording.len() {
        if places >> (at - 1) & 1 == 1 {
            parts.push(&recording[begun..at]);
            begun = at;
        }
    }
    parts.push(&recording[begun..]);
    parts
}

#[test]
fn every_cut_of_short_recordings() {
    for (recording, state) in [
        (&b"30a1b2\n30ffff\n"[..], 2),
        (b"300001\n30beef", (6 << 48) + (0xbeef << 32) + 1),
        (b"300001\r\n30000\n", malformed(0)),
        (b"300001\n30000A\n", malformed(1)),
        (b"300001\n\n30000\n", malformed(1)),
    ] {
        let whole = fed(0, &[recording], 5);
        assert_eq!(whole.0, state);
        for places in 0..1 << (recording.len() - 1) {
            assert_eq!(fed(0, &cut(recording, places), 5), whole);
        }
    }
}

#[test]
fn malformed_at_every_column() {
    let good = b"300001\n30a2c9\n300003\n";
    assert_eq!(fed(0, &[good], 6).1, [0, 1, 0xa2, 0xc9, 0, 3]);
    for column in 0..7 {
        let right = (0..=255).filter(|byte| {
            let mut recording = good.to_vec();
            recording[7 + column] = *byte;
            let state = fed(0, &[&recording], 6).0;
            let bytes: Vec<&[u8]> = recording.chunks(1).collect();
            assert_eq!(fed(0, &bytes, 6).0, state);
            assert!(state == 3 || state == malformed(1), "{state:x}");
            state == 3
        });
        let expected: &[u8] = match column {
            0 => b"3",
            1 => b"0",
            6 => b"\n",
            _ => b"0123456789abcdef",
        };
        assert_eq!(right.collect::<Vec<u8>>(), expected);
    }
}

#[test]
fn torn_lines_of_every_length() {
    for length in 1..7 {
        let begun = fed(0, &[b"300001\n", &b"30c0de"[..length]], 4).0;
        assert_eq!((begun >> 48, begun as u32), (length as u64, 1));
        let (state, samples) = fed(begun, &[&b"30c0de\n"[length..]], 4);
        assert_eq!((state, &samples[2..]), (2, &[0xc0, 0xde][..]));
    }
}

/// As far as there is room; bytes beyond the samples stay, and so does an odd last one.
#[test]
fn samples_are_kept_as_far_as_there_is_room() {
    let recording = b"300102\n300304\n300506\n";
    let whole = [1, 2, 3, 4, 5, 6, 0x5a, 0x5a];
    for room in 0..=8 {
        let (state, samples) = fed(0, &[recording], room);
        assert_eq!(state, 3);
        let kept = (room / 2 * 2).min(6);
        assert_eq!(samples[..kept], whole[..kept]);
        assert!(samples[kept..].iter().all(|b| *b == 0x5a));
    }
}

/// Every number of column and value on some lines: a state or 29, as the model says.
#[test]
fn every_column_and_value() {
    let mut states = 0;
    for high in 0..1 << 20 {
        let state = (high << 32) + [0, 7, 4_294_967_294][high as usize % 3];
        states += u32::from(fed(state, &[b""], 2).0 == state);
    }
    // 1 each of columns 0, 1, 2 and 7; then as many as one to four digits say: 16, 256, 4,096 and 65,536
    assert_eq!(states, 69_908);
}

/// Numbers by chance, and near to states: each gets 29 and leaves the samples, or goes on as the model does.
#[test]
fn states_by_chance() {
    let mut number: u64 = 205;
    let mut works = 0;
    for round in 0..200_000 {
        number = number.wrapping_mul(0x5851_f42d_4c95_7f2d).wrapping_add(1);
        let drawn = number ^ number >> 29;
        let state = match round % 4 {
            0 => drawn,
            1 => drawn >> 12,
            2 => (drawn >> 60 << 48) + (drawn & 0xff_ffff_ffff),
            _ => (drawn >> 61 << 48) + 4_294_967_290 + drawn % 6,
        };
        let parts: [&[u8]; 2] = [b"3000", b"12\n300034\n30"];
        let (next, samples) = fed(state, &parts[..1 + round % 2], 8);
        if next == NO_STATE {
            assert_eq!(samples, [0x5a; 8]);
        }
        works += u32::from(next != NO_STATE);
    }
    assert!(works > 10_000, "{works}");
}

#[test]
fn the_last_allowed_line() {
    let last = 4_294_967_295;
    assert_eq!(fed(last - 1, &[b"300007\n"], 2), (last, vec![0x5a; 2]));
    for more in [&b"3"[..], b"\n", b"300007\n"] {
        assert_eq!(fed(last, &[more], 0).0, malformed(last));
        assert_eq!(
            fed(last - 1, &[b"30000", b"7\n", more], 0).0,
            malformed(last)
        );
    }
    for column in 1..=6 {
        assert_eq!(fed((column << 48) + last, &[b""], 0).0, NO_STATE);
    }
    assert_eq!(fed(malformed(last), &[b"300007\n"], 0).0, malformed(last));
}

/// Long ones, good and with a byte that is another, in parts about whole lines, as a host may read them, and in one.
#[test]
fn long_recordings() {
    let mut recording: Vec<u8> = (0..9000_u32)
        .flat_map(|i| format!("30{:04x}\n", i * 40_503 % 65_536).into_bytes())
        .collect();
    for round in 0..4 {
        if round > 0 {
            let at = 7 * 9000 - 1 - round * 1301;
            recording[at] ^= 4;
        }
        let whole = fed(0, &[&recording], 2 * MOST_SAMPLES);
        for length in [1, 2, 6, 7, 8, 13, 14, 15, 100, 4096, 65_536] {
            let parts: Vec<&[u8]> = recording.chunks(length).collect();
            assert!(fed(0, &parts, 2 * MOST_SAMPLES) == whole, "{length}");
        }
    }
}
