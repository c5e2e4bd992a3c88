//! `run`, as a host calls it: 01's session, each refusal, what is left of lent memory, and the model beside it.

mod common;

use common::{of_model, refused, stored, LIST};
use mboxalind::{run, Answer, CELLS};
use model::LINES;

/// The answer; cells and out have to be as they were if it is a refusal.
fn run_over(list: &[u8], cells: usize, out: usize) -> Answer {
    let (mut cells, mut out) = (vec![0x5a; cells], vec![0x5a; out]);
    let answer = run(list, &mut cells, &mut out);
    if matches!(answer, Answer::Refused(_)) {
        assert!(cells.iter().chain(&out).all(|b| *b == 0x5a));
    }
    answer
}

#[test]
fn the_whole_session() {
    let (mut cells, mut out) = ([0x5a; 10], [0x5a; 9]);
    assert_eq!(run(LIST, &mut cells, &mut out), Answer::Written(7));
    assert_eq!(&out, b"a000ff\nZZ");
    assert_eq!(cells, [0, 0, 0, 0xff, 0, 0, 0x5a, 0x5a, 0x5a, 0x5a]);
}

#[test]
fn each_refusal() {
    assert_eq!(run_over(b"", 8, 8), refused(1, 0));
    assert_eq!(run_over(b"05\nzz\n900000\n", 8, 8), refused(1, 1));
    assert_eq!(run_over(b"901001\n", 2 * CELLS + 2, 8), refused(1, 0));
    assert_eq!(
        run_over(&b"05\n".repeat(LINES + 1), 8, 8),
        refused(2, LINES as u32)
    );
    assert_eq!(run_over(b"110001\n900001\n", 8, 8), refused(20, 0));
    assert_eq!(run_over(b"140001\n900001\n", 8, 8), refused(20, 0));
    assert_eq!(run_over(b"05\n140000\n900001\n", 0, 0), refused(23, 1));
    assert_eq!(run_over(b"05\nf00002\n900000\n", 8, 8), refused(1, 1));
    assert_eq!(run_over(b"f00003\n900000\n", 8, 8), refused(1, 0));
    assert_eq!(run_over(b"f00002\n110001\n900001\n", 8, 8), refused(20, 1));
    assert_eq!(run_over(LIST, 5, 7), refused(17, 0));
    assert_eq!(run_over(LIST, 6, 6), refused(17, 0));
    assert_eq!(run_over(LIST, 6, 7), Answer::Written(7));
}

/// W-211: the title is a line that does nothing.
#[test]
fn a_list_of_edition_2() {
    let (mut cells, mut out) = ([0x5a; 10], [0x5a; 9]);
    let titled = [b"f00002\n", LIST].concat();
    assert_eq!(run(&titled, &mut cells, &mut out), Answer::Written(7));
    assert_eq!(&out, b"a000ff\nZZ");
    let full = [b"f00002\n", &b"05\n".repeat(LINES - 1)[..], b"900000\n"].concat();
    assert_eq!(run_over(&full, 0, 0), Answer::Written(0));
    let over = [b"f00002\n", &b"05\n".repeat(LINES)[..], b"900000\n"].concat();
    assert_eq!(run_over(&over, 0, 0), refused(2, LINES as u32));
}

#[test]
fn nothing_lent() {
    assert_eq!(run(b"900000\n", &mut [], &mut []), Answer::Written(0));
    assert_eq!(run(b"110000\n900001\n", &mut [], &mut []), refused(17, 0));
}

/// Each list as it is, and with one byte of it another.
#[test]
fn the_stored_lists_and_the_model() {
    let mut asked = 0;
    for (_, mut list) in stored() {
        for bend in 0..4 {
            if bend > 0 {
                let at = (asked * 31 + bend * 97) % list.len();
                list[at] = b"0f9\n"[bend];
            }
            let (mut cells, mut out) = (vec![7; 2 * CELLS], vec![7; 8000]);
            let (mut their_cells, mut their_out) = (cells.clone(), out.clone());
            let theirs = of_model(model::run(&list, &mut their_cells, &mut their_out));
            assert_eq!(run(&list, &mut cells, &mut out), theirs);
            assert!(cells == their_cells && out == their_out);
            asked += 1;
        }
    }
    assert!(asked > 1000);
}
