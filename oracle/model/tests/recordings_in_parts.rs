//! W-205 of 02: "Recordings are read in parts of any length, and where they are cut changes nothing." The whole recording, read by its lines,
//! stands beside the parts.

mod common;
use common::*;
use model::{is_state, read_recording, samples, samples_from, Refusal, LINES, RECORDING_LINES};

const LAST: u64 = RECORDING_LINES as u64;

fn state(column: u64, value: u64, line: u64) -> u64 {
    (column << 48) + (value << 32) + line
}

/// The state of a malformed line.
fn malformed(line: u64) -> u64 {
    state(7, 0, line)
}

/// The state after all parts, and the samples that were kept.
fn in_parts(first: u64, parts: &[&[u8]], bytes: usize) -> (u64, Vec<u8>) {
    let mut kept = vec![0x5a; bytes];
    let feed = |state, part: &&[u8]| read_recording(state, &mut kept, part);
    (parts.iter().fold(first, feed), kept)
}

/// What the lines of the whole say of its end: as many samples as lines, or the first malformed one.
#[track_caller]
fn as_whole(recording: &[u8], state: u64, kept: &[u8]) {
    match samples(recording) {
        Ok(all) => {
            assert_eq!(state, all.len() as u64);
            let bytes: Vec<u8> = all.iter().flat_map(|v| v.to_be_bytes()).collect();
            let room = kept.len() / 2 * 2;
            let count = bytes.len().min(room);
            assert_eq!(kept[..count], bytes[..count]);
            assert!(kept[count..].iter().all(|b| *b == 0x5a));
        }
        Err(refusal) => {
            let torn = state >> 48 != 0 && state >> 48 < 7;
            let expected = refusal.line as u64;
            assert_eq!(state & 0xffff_ffff, expected);
            assert!(torn || state == malformed(expected), "{state:x}");
        }
    }
}

/// Each way to cut it into parts: a bit for each place between two bytes.
fn every_cut(recording: &[u8]) {
    let whole = in_parts(0, &[recording], 5);
    as_whole(recording, whole.0, &whole.1);
    for cuts in 0..1_u32 << (recording.len() - 1) {
        let mut parts = Vec::new();
        let mut rest = recording;
        for at in (0..recording.len() - 1).rev() {
            if cuts >> at & 1 == 1 {
                let (before, after) = rest.split_at(at + 1);
                parts.insert(0, after);
                rest = before;
            }
        }
        parts.insert(0, rest);
        assert_eq!(in_parts(0, &parts, 5), whole, "{parts:?}");
    }
}

#[test]
fn every_cut_of_short_recordings() {
    every_cut(b"30a1b2\n30ffff\n");
    every_cut(b"300001\n3000");
    every_cut(b"300001\n300002");
    every_cut(b"300001\r\n300002\n");
    every_cut(b"30000F\n300002\n");
    every_cut(b"300001\n\n300002\n");
    every_cut(b"3000011\n300002\n");
}

/// A byte of the second line is another: at every column, each byte that may not stand there, in one part and byte by byte.
#[test]
fn malformed_at_every_column() {
    let good = b"300001\n30a2c9\n300003\n";
    for column in 0..7 {
        for byte in 0..=255 {
            let fits = match column {
                0 => byte == b'3',
                1 => byte == b'0',
                6 => byte == b'\n',
                _ => byte.is_ascii_digit() || (b'a'..=b'f').contains(&byte),
            };
            let mut recording = good.to_vec();
            recording[7 + column] = byte;
            let bytes: Vec<&[u8]> = recording.chunks(1).collect();
            let (state, kept) = in_parts(0, &[&recording], 6);
            assert_eq!(in_parts(0, &bytes, 6), (state, kept.clone()));
            as_whole(&recording, state, &kept);
            assert_eq!(state, if fits { 3 } else { malformed(1) });
        }
    }
}

/// A byte of the second line is missing, or there is one too many.
#[test]
fn too_short_or_too_long_at_every_column() {
    let good = b"300001\n30a2c9\n300003\n";
    for at in 7..14 {
        let missing = [&good[..at], &good[at + 1..]].concat();
        let twice = [&good[..=at], &good[at..]].concat();
        // a second LF is a line of its own
        let lines = if at == 13 { [1, 2] } else { [1, 1] };
        for (recording, line) in [missing, twice].iter().zip(lines) {
            assert_eq!(fed(recording, 0).0, malformed(line));
            let line = line as usize;
            assert_eq!(samples(recording), Err(Refusal { number: 24, line }));
        }
    }
}

/// The state says which bytes of the line were read: column, value, line.
#[test]
fn torn_lines_of_every_length() {
    let line = b"30beef";
    let values = [0, 0, 0, 0xb, 0xbe, 0xbee, 0xbeef];
    for (length, value) in values.into_iter().enumerate() {
        let torn = [b"300001\n", &line[..length]].concat();
        let state = state(length as u64, value, 1);
        assert_eq!(fed(&torn, 0).0, state);
        let refusal = Refusal {
            number: 24,
            line: 1,
        };
        let ended = if length == 0 {
            Ok(vec![1])
        } else {
            Err(refusal)
        };
        assert_eq!(samples(&torn), ended);
        let (next, kept) = in_parts(state, &[&line[length..], b"\n"], 4);
        assert_eq!((next, &kept[2..]), (2, &[0xbe, 0xef][..]));
    }
}

#[test]
fn empty_recordings_and_empty_parts() {
    assert_eq!(samples(b""), Ok(vec![]));
    assert_eq!(in_parts(0, &[], 0).0, 0);
    assert_eq!(in_parts(0, &[b"", b"", b""], 0).0, 0);
    assert_eq!(in_parts(0, &[b"3", b"", b"0"], 0).0, state(2, 0, 0));
    assert_eq!(
        in_parts(malformed(9), &[b"", b"300000\n"], 0).0,
        malformed(9)
    );
}

#[test]
fn cr_lf_uppercase_digits_and_blank_lines() {
    for (recording, line) in [
        (&b"300001\r\n"[..], 0),
        (b"300001\n30000A\n", 1),
        (b"300001\n\n", 1),
        (b" 300001\n", 0),
        (b"300001\n310001\n", 1),
        (b"3000010000\n", 0),
        (b"30\n", 0),
        (b"900000\n", 0),
    ] {
        assert_eq!(fed(recording, 0).0, malformed(line));
        let line = line as usize;
        assert_eq!(samples(recording), Err(Refusal { number: 24, line }));
    }
}

/// Long recordings, some damaged at one byte, in parts of lengths by chance.
#[test]
fn cuts_by_chance_of_long_recordings() {
    let mut chance = Chance(205);
    for round in 0..200 {
        let lines = chance.below(3000);
        let line = |v: u64| format!("30{:04x}\n", v & 0xffff);
        let mut recording: Vec<u8> = (0..lines)
            .flat_map(|_| line(chance.draw()).into_bytes())
            .collect();
        if round % 2 == 1 && lines > 0 {
            let at = chance.below(recording.len());
            recording[at] ^= 1 << chance.below(8);
        }
        if round % 5 == 0 {
            recording.truncate(recording.len() - chance.below(7).min(recording.len()));
        }
        let longest = [1, 7, 20, 100, 5000][round % 5];
        let (mut parts, mut rest) = (Vec::new(), &recording[..]);
        while !rest.is_empty() {
            let (part, after) = rest.split_at(rest.len().min(1 + chance.below(longest)));
            parts.push(part);
            rest = after;
        }
        let bytes = [0, 1, 100, 2 * LINES, 7000][round / 5 % 5];
        let (state, kept) = in_parts(0, &parts, bytes);
        assert!((state, kept.clone()) == in_parts(0, &[&recording], bytes));
        as_whole(&recording, state, &kept);
    }
}

/// All numbers of a line but for its own: those that bytes leave are states, and no other.
#[test]
fn every_state_of_a_line() {
    let mut left = 0;
    for (column, digits) in [0, 0, 0, 1, 2, 3, 4].into_iter().enumerate() {
        for value in 0..1_u64 << (4 * digits) {
            let begun = match column {
                0 | 1 => "30"[..column].to_string(),
                2 => "30".into(),
                _ => format!("30{value:0digits$x}"),
            };
            let state = state(column as u64, value, 5);
            assert_eq!(read_recording(5, &mut [], begun.as_bytes()), state);
            left += 1;
        }
    }
    let numbers = (0..1 << 20).map(|high: u64| (high << 32) + 5);
    assert_eq!(numbers.filter(|n| is_state(*n)).count(), left + 1);
    assert!(is_state(malformed(5)) && !is_state(state(7, 1, 5)));
}

/// A number by chance gets 29, and the samples stay; or it is a state, which an empty part leaves as it is.
#[test]
fn states_by_chance() {
    let mut chance = Chance(29);
    let mut works = 0;
    for round in 0..100_000 {
        let state = match round % 3 {
            0 => chance.draw(),
            1 => chance.draw() >> 12,
            _ => state(chance.draw() % 9, chance.draw() % 300, chance.draw() % 10),
        };
        let mut kept = [0x5a; 20];
        if !is_state(state) {
            assert_eq!(read_recording(state, &mut kept, b"300001\n"), 29 << 32);
            assert_eq!(kept, [0x5a; 20]);
            continue;
        }
        works += 1;
        assert_eq!(read_recording(state, &mut kept, b""), state);
        assert!(is_state(read_recording(state, &mut kept, b"300001\n")));
    }
    assert!(works > 1000, "{works}");
}

/// "at most 4,294,967,295 lines; one more counts as malformed"
#[test]
fn the_last_allowed_line() {
    let last = LAST - 1;
    assert_eq!(in_parts(last, &[b"300007\n"], 2), (LAST, vec![0x5a; 2]));
    assert_eq!(in_parts(last, &[b"300007\n", b""], 0).0, LAST);
    for more in [&b"3"[..], b"\n", b"300007\n", b"x"] {
        assert_eq!(in_parts(LAST, &[more], 0).0, malformed(LAST));
        let both = [b"300007\n", more].concat();
        assert_eq!(in_parts(last, &[&both], 0).0, malformed(LAST));
        let refusal = Err(Refusal {
            number: 24,
            line: RECORDING_LINES,
        });
        assert_eq!(samples_from(RECORDING_LINES - 1, &both), refusal);
    }
    assert_eq!(samples_from(RECORDING_LINES - 1, b"300007\n"), Ok(vec![7]));
    assert_eq!(in_parts(last, &[b"300007", b"x"], 0).0, malformed(last));
    // past the last line there is no column but the first and the malformed one
    let columns: Vec<u64> = (0..9).filter(|c| is_state(state(*c, 0, LAST))).collect();
    assert_eq!(columns, [0, 7]);
}
