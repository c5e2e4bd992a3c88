//! W-206's sizes, as a host meets them: all slots held, all handles handed out, and one more; the largest size; the longest list.
#![cfg(translate)]

mod common;

use common::{of_model, refused};
use mboxalind::{run, translate, Answer, CELLS, MOST_SAMPLES, TEXT};

/// Lines with ` / ` between them.
fn text(lines: &str) -> Vec<u8> {
    let ended = |line: &str| format!("{}\n", line.trim()).into_bytes();
    lines.split('/').flat_map(ended).collect()
}

/// The answer, which is the model's; a list is written to the start of a text buffer.
fn translated(script: &[u8]) -> Result<Vec<u8>, Answer> {
    let mut list = vec![0x5a; TEXT];
    let answer = translate(script, &mut list);
    let theirs = model::translate(script, TEXT);
    let length = theirs.as_ref().map(Vec::len);
    assert_eq!(answer, of_model(length.map_err(|r| *r)));
    let rest = list.split_off(theirs.as_ref().map_or(0, Vec::len));
    assert!(rest.iter().all(|b| *b == 0x5a));
    match theirs {
        Ok(theirs) => {
            assert_eq!(list, theirs);
            Ok(list)
        }
        Err(_) => Err(answer),
    }
}

#[track_caller]
fn gives(script: &str, list: &str) {
    assert_eq!(translated(&text(script)), Ok(text(list)));
}

#[track_caller]
fn refuses(script: &str, number: u8, line: u32) {
    assert_eq!(translated(&text(script)), Err(refused(number, line)));
}

/// In Rust, and in C.
#[test]
fn the_sizes_are_the_models() {
    let model = (model::BUFFER, model::SLOTS, model::LINES);
    assert_eq!((TEXT, CELLS, MOST_SAMPLES), model);
    let header = include_str!("../mboxalind.h");
    for (name, size) in [("TEXT", TEXT), ("CELLS", CELLS), ("SAMPLES", MOST_SAMPLES)] {
        let said = format!("MBOXALIND_{name} = {size}");
        let mut words = header.split([',', '{', '}']);
        assert!(words.any(|word| word.trim() == said), "{said}");
    }
}

#[test]
fn all_slots_held() {
    gives("081000", "080000 / 901000");
    gives("080fff / 06", "080000 / 060fff / 901000");
    gives("080f80 / 06", "080000 / 060f80 / 900f81");
    refuses("081000 / 06", 7, 1);
    refuses("081001", 7, 0);
    refuses("082000", 7, 0);
    refuses("081000 / 0c0000 / 0c0fff / 06 / 06", 7, 4);
    let holes = "f00002 / 081000 / 0c0005 / 0c0800 / 06 / 06";
    let list = "f00002 / 080000 / 0c / 0c / 060005 / 060800 / 901000";
    gives(holes, list);
    refuses(&format!("{holes} / 06"), 7, 6);
}

#[test]
fn all_handles_handed_out() {
    let all = "01 / 081000 / 020001 / 081000";
    let list = "010001 / 080000 / 02 / 080000";
    gives(all, &format!("{list} / 901000"));
    gives(
        &format!("{all} / 101fff0007 / 111fff"),
        &format!("{list} / 100fff0007 / 110fff / 901000"),
    );
    refuses(&format!("{all} / 06"), 16, 4);
    refuses(&format!("{all} / 112000"), 13, 4);
    refuses("082001", 16, 0);
    refuses(&format!("f00002 / {all} / 06"), 16, 5);
}

/// W-206: "The size line may go up to 4,096."; the last cell is the last slot's.
#[test]
fn the_largest_size() {
    let list = b"100fff00ff\n110fff\n901000\n";
    let (mut cells, mut out) = (vec![0x5a; 2 * CELLS + 2], [0; 7]);
    assert_eq!(run(list, &mut cells, &mut out), Answer::Written(7));
    assert_eq!(&out, b"a000ff\n");
    assert_eq!(cells[2 * CELLS - 2..], [0, 0xff, 0x5a, 0x5a]);
    assert!(cells[..2 * CELLS - 2].iter().all(|b| *b == 0));
    let short = &mut cells[..2 * CELLS - 1];
    assert_eq!(run(list, short, &mut out), refused(17, 0));
    assert_eq!(run(b"901001\n", &mut cells, &mut out), refused(1, 0));
}

/// All slots are closed and drained, twice, and all other frames write: the longest list that we know of. It fits a text buffer.
#[test]
fn the_longest_list() {
    let writes = b"1000000007\n".repeat(model::LINES - 7);
    let script = [
        &text("01 / 081000"),
        &writes[..],
        &text("020001 / 0f / 081000 / 05 / 0f"),
    ]
    .concat();
    let list = translated(&script).expect("a list");
    let bound = 11 * model::LINES + 4 * model::HANDLES + 7;
    assert_eq!(list.len(), bound - 36);
    let (mut cells, mut out) = (vec![0x5a; 2 * CELLS], [0x5a; 1]);
    assert_eq!(run(&list, &mut cells, &mut out), Answer::Written(0));
    assert_eq!((&cells[..4], out), (&[0, 7, 0, 0][..], [0x5a]));
    let mut short = vec![0x5a; list.len() - 1];
    assert_eq!(translate(&script, &mut short), refused(17, 0));
    assert!(short.iter().all(|b| *b == 0x5a));
}
