//! How W-205 of 02 is read (docs/DECISIONS.md): frame 14, recordings, a run beside one.

mod common;
use common::*;
use model::{recorded_runner, run_recorded, runner, Lent, Refusal, BUFFER};

#[test]
fn a_sample_is_refused_as_a_write_is() {
    accepts("06 / 140000 / 110000", "060000 / 140000 / 110000 / 900001");
    refuses("140000", 13, 0);
    refuses("06 / 05 / 140000", 14, 2);
    refuses("06 / 0c0000 / 140000", 14, 2);
    // .. and marks the allocation written, for 12 too
    refuses("06 / 110000", 15, 1);
    accepts(
        "06 / 0900070000 / 140000 / 120007",
        "060000 / 09 / 140000 / 120000 / 900001",
    );
    // the address, not the handle
    accepts(
        "06 / 0c0000 / 06 / 140001",
        "060000 / 0c / 060000 / 140000 / 900001",
    );
    // a need's handle may be written
    accepts(
        "200000 / 230000 / 140000 / 110000",
        "200000 / 230000 / 140000 / 110000 / 900001",
    );
}

#[test]
fn the_text_of_the_frame_and_of_its_line() {
    for line in ["14", "1400000000", "1400", "13", "130000", "150000"] {
        refuses(line, 1, 0);
        list_refused(&text(&format!("{line} / 900001")), 1, 0);
    }
}

#[test]
fn samples_in_order_each_used_once() {
    let list =
        text("140000 / 110000 / 140001 / 1000020009 / 110002 / 140000 / 110000 / 110001 / 900003");
    let recording = text("30ffff / 300000 / 300001 / 30abcd / 300002");
    let loads = text("a0ffff / a00009 / a00001 / a00000");
    assert_eq!(recorded(&list, &recording), Ok((loads, 2)));
}

/// A101: in the order 20, 24, 23, 17.
#[test]
fn order_of_20_24_23_and_17() {
    let short = |list: &[u8], recording: &[u8]| {
        let (state, samples) = fed(recording, 0);
        let lent = Lent {
            cells: &mut [],
            out: &mut [],
            left: &mut [],
        };
        let answer = run_recorded(list, state, &samples, lent);
        answer.map_err(|r| (r.number, r.line))
    };
    assert_eq!(short(b"140000\n900001\n", b""), Err((23, 0)));
    assert_eq!(short(b"140001\n900001\n", b"x"), Err((20, 0)));
    assert_eq!(short(b"140000\n900001\n", b"x"), Err((24, 0)));
    assert_eq!(short(b"14000\n900001\n", b"x"), Err((1, 0)));
    assert_eq!(short(b"140000\n900001\n", b"300001\n"), Err((17, 0)));
    assert_eq!(short(b"900000\n", b""), Err((17, 0)));
}

/// 20 covers 14 wherever it stands.
#[test]
fn a_14_is_held_against_the_size() {
    list_refused(b"140000\n900000\n", 20, 0);
    recorded_refused(b"140000\n110000\n140001\n900001\n", b"", 20, 2);
}

/// A102
#[test]
fn a_malformed_recording_beside_a_list_without_14() {
    recorded_refused(b"900000\n", b"x", 24, 0);
}

/// A103
#[test]
fn a_torn_last_line() {
    recorded_refused(b"140000\n900001\n", b"300001", 24, 0);
    recorded_refused(b"140000\n900001\n", b"300001\n3", 24, 1);
}

/// "24 .. wherever it stands; otherwise 23": also where the samples before it are too few, or enough.
#[test]
fn a_malformed_line_far_behind() {
    let recording = [&b"300001\n".repeat(5000)[..], b"30000x\n"].concat();
    recorded_refused(b"140000\n900001\n", &recording, 24, 5000);
    recorded_refused(b"140000\n140000\n900001\n", b"300001\n\n", 24, 1);
}

/// A105
#[test]
fn the_first_14_line_without_a_sample() {
    let list = b"140000\n0f0000\n140000\n140000\n900001\n";
    recorded_refused(list, b"300007\n", 23, 2);
    recorded_refused(list, b"", 23, 0);
    recorded_refused(list, b"300007\n300007\n", 23, 3);
    assert_eq!(recorded(list, &b"300007\n".repeat(3)), Ok((vec![], 0)));
}

/// A104: by the function in four lent bytes, high first; by the program as a last line.
#[test]
fn the_number_left_over() {
    let list = b"140000\n110000\n900001\n";
    let (state, samples) = fed(&b"300102\n".repeat(0x20304 + 1), 2);
    let (mut cells, mut out, mut left) = ([7; 3], [7; 8], [7; 6]);
    let lent = Lent {
        cells: &mut cells,
        out: &mut out,
        left: &mut left,
    };
    assert_eq!(run_recorded(list, state, &samples, lent), Ok(7));
    assert_eq!(left, [0, 2, 3, 4, 7, 7]);
    assert_eq!((cells, &out), ([1, 2, 7], b"a00102\n\x07"));
    let printed = recorded_runner(list, b"30ffff\n300001\n");
    assert_eq!(printed, b"a0ffff\na100000001\n");
    assert_eq!(recorded_runner(b"900000\n", b""), b"a100000000\n");
}

/// A150: 17, last; the samples are counted over the recording, not over what was kept.
#[test]
fn fewer_samples_kept_than_the_list_takes() {
    let list = b"140000\n140000\n900001\n";
    let recording = b"300001\n300002\n300003\n";
    for (bytes, expected) in [(3, Err((17, 0))), (4, Ok(0)), (5, Ok(0)), (60, Ok(0))] {
        let (state, samples) = fed(recording, bytes);
        let mut left = [0; 4];
        let lent = Lent {
            cells: &mut [0; 2],
            out: &mut [],
            left: &mut left,
        };
        let answer = run_recorded(list, state, &samples, lent);
        assert_eq!(answer.map_err(|r| (r.number, r.line)), expected);
        assert_eq!(left, [0, 0, 0, u8::from(expected.is_ok())]);
    }
}

/// A151
#[test]
fn without_a_recording_as_with_an_empty_one() {
    list_refused(b"0f0000\n140000\n900001\n", 23, 1);
    assert_eq!(runner(b"140000\n900001\n"), b"ee170000\n");
    assert_eq!(machine(b"900001\n"), Ok(vec![]));
}

#[test]
fn what_the_program_prints_of_a_refusal() {
    assert_eq!(recorded_runner(b"900000\n", b"3000"), b"ee1800000000\n");
    let far = [&b"300000\n".repeat(0x12345)[..], b"\r\n"].concat();
    assert_eq!(recorded_runner(b"900000\n", &far), b"ee1800012345\n");
    assert_eq!(recorded_runner(b"140000\n900001\n", b""), b"ee170000\n");
    assert_eq!(recorded_runner(b"140001\n900001\n", b"x"), b"ee140000\n");
    assert_eq!(recorded_runner(&[b'0'; BUFFER + 1], b"x"), b"ee110000\n");
}

/// 29 comes before everything, and no refusal changes what is lent.
#[test]
fn a_number_that_is_no_state_and_lent_memory_after_a_refusal() {
    let cases: [(&[u8], u64, u8); 6] = [
        (b"zz\n", 1 << 32, 29),
        (b"zz\n", 7 << 48, 1),
        (b"110001\n900001\n", 7 << 48, 20),
        (b"140000\n900001\n", 7 << 48, 24),
        (b"140000\n900001\n", 0, 23),
        (b"110000\n900002\n", 0, 17),
    ];
    for (list, state, number) in cases {
        let (mut cells, mut out, mut left) = ([7; 2], [7; 7], [7; 4]);
        let lent = Lent {
            cells: &mut cells,
            out: &mut out,
            left: &mut left,
        };
        let answer = run_recorded(list, state, &[1, 2], lent);
        assert_eq!(answer, Err(Refusal { number, line: 0 }));
        assert_eq!((cells, out, left), ([7; 2], [7; 7], [7; 4]));
    }
}
