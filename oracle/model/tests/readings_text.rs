//! How 01 is read where it leaves a choice (docs/DECISIONS.md): texts, lists, lent memory. What only programs show is not here.

mod common;
use common::*;
use model::{run, runner, translate, translator, Refusal, BUFFER, LINES, SLOTS};

#[test]
fn last_lf_missing() {
    refuses_bytes(b"06\n06", 1, 1);
}

#[test]
fn no_line_after_the_last_lf() {
    accepts_bytes(
        &times(LINES, "0f"),
        &join(&[&times(LINES, "0f0000"), b"900000\n"]),
    );
}

#[test]
fn empty_line() {
    refuses_bytes(b"\n", 1, 0);
}

#[test]
fn an_earlier_1_wins_over_2() {
    refuses_bytes(&join(&[b"zz\n", &times(LINES, "0f")]), 1, 0);
}

#[test]
fn one_byte_makes_line_2048_exist() {
    refuses_bytes(&join(&[&times(LINES, "0f"), b"0"]), 2, LINES);
    refuses_bytes(&times(LINES + 1, "0f"), 2, LINES);
}

#[test]
fn text_before_steps() {
    refuses("05 / 06 / zz", 1, 2);
}

#[test]
fn wide_operands_are_well_formed() {
    refuses("08ffff", 16, 0);
    refuses("02ffff", 4, 0);
    refuses("0cffff", 13, 0);
}

#[test]
fn the_library_takes_any_length() {
    refuses_bytes(&[b'0'; BUFFER + 1], 1, 0);
}

#[test]
fn programs_refuse_longer_input_first() {
    assert_eq!(translator(&[b'0'; BUFFER + 1]), b"ee110000\n");
    assert_eq!(translator(&[b'0'; BUFFER]), b"ee010000\n");
    assert_eq!(runner(&[b'0'; BUFFER + 1]), b"ee110000\n");
    assert_eq!(runner(&[b'0'; BUFFER]), b"ee010000\n");
}

#[test]
fn the_ee_line_ends_with_lf() {
    assert_eq!(translator(b"05\n06\n"), b"ee030001\n");
}

#[test]
fn to_a13_early_size_lines() {
    list_refused(b"900001\n0f0000\n", 1, 0);
    list_refused(b"900001\n9", 1, 0);
    list_refused(b"900001\n900001\n", 1, 0);
}

#[test]
fn missing_size_line() {
    list_refused(b"", 1, 0);
    list_refused(b"0f0000\n", 1, 1);
}

#[test]
fn to_a18_line_2048_of_a_list() {
    let full = times(LINES, "0f0000");
    list_refused(&full, 1, LINES);
    list_refused(&join(&[&full, b"90ffff\n"]), 1, LINES);
    list_refused(&join(&[&full, b"900001\n0"]), 1, LINES);
    list_refused(&join(&[&full, b"90000A\n"]), 2, LINES);
    list_refused(&join(&[&full, b"900001"]), 2, LINES);
    list_refused(&join(&[&full, b"0f0000\n900000\n"]), 2, LINES);
    assert_eq!(machine(&join(&[&full, b"901000\n"])), Ok(vec![]));
}

/// A107: "size lines 1,025 to 4,096: once 1, now read".
#[test]
fn sizes_up_to_4096() {
    for size in ["900400", "900401", "901000"] {
        assert_eq!(machine(&text(size)), Ok(vec![]));
        assert_eq!(runner(&text(size)), b"");
    }
    list_refused(b"901001\n", 1, 0);
    assert_eq!(runner(b"901001\n"), b"ee010000\n");
}

#[test]
fn gives_90_in_a_script() {
    refuses("900000", 1, 0);
    refuses_bytes(&join(&[&times(LINES, "0f"), b"900000\n"]), 2, LINES);
}

#[test]
fn only_10_11_12_are_held_against_the_size() {
    assert_eq!(machine(b"06ffff\n900000\n"), Ok(vec![]));
    list_refused(b"110000\n900000\n", 20, 0);
}

#[test]
fn drain_lines_of_any_length() {
    let more = SLOTS + 1;
    let count = format!("0f{more:04x}");
    let drained = join(&[count.as_bytes(), &b"0000".repeat(more), b"\n900000\n"]);
    assert_eq!(machine(&drained), Ok(vec![]));
    list_refused(b"0f0001\n900000\n", 1, 0);
    list_refused(b"0f00000000\n900000\n", 1, 0);
}

#[test]
fn a_cell_never_written_is_zero() {
    assert_eq!(machine(b"110000\n900001\n"), Ok(b"a00000\n".to_vec()));
}

const SHORT: Result<Vec<u8>, Refusal> = Err(Refusal {
    number: 17,
    line: 0,
});

#[test]
fn room_exactly_the_answer() {
    assert_eq!(translate(b"06\n", 13), SHORT);
    assert_eq!(translate(b"06\n", 14), Ok(b"060000\n900001\n".to_vec()));
    let list = b"110000\n900001\n";
    assert_eq!(run(list, &mut [0; 2], &mut [0; 6]), Err(SHORT.unwrap_err()));
    assert_eq!(run(list, &mut [0; 2], &mut [0; 7]), Ok(7));
}

#[test]
fn gives_17_is_last() {
    let short = Err(SHORT.unwrap_err());
    assert_eq!(run(b"110000\n900001\n", &mut [], &mut []), short);
    let high = Err(Refusal {
        number: 20,
        line: 0,
    });
    assert_eq!(run(b"110001\n900001\n", &mut [], &mut []), high);
    assert_eq!(
        translate(b"05\n06\n", 0),
        Err(Refusal { number: 3, line: 1 })
    );
}

#[test]
fn bytes_beyond_the_answer_stay() {
    let mut cells = [7; 5];
    let mut out = [9; 9];
    assert_eq!(run(b"110000\n900001\n", &mut cells, &mut out), Ok(7));
    assert_eq!(cells, [0, 0, 7, 7, 7]);
    assert_eq!(&out, b"a00000\n\x09\x09");
    assert_eq!(
        run(b"900003\n", &mut cells, &mut out),
        Err(SHORT.unwrap_err())
    );
    assert_eq!(cells, [0, 0, 7, 7, 7]);
}

#[test]
fn the_run_program_lends_4096_cells() {
    assert_eq!(runner(b"100fff0007\n110fff\n901000\n"), b"a00007\n");
}

#[test]
fn a_line_number_has_four_digits() {
    assert_eq!(translator(&times(LINES + 1, "0f")), b"ee020800\n");
}
