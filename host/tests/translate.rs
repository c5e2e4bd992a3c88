//! `translate`, as a host calls it: 01's session, lent memory, edition 2, and the stored answers.
#![cfg(translate)]

mod common;

use common::{of_model, refused, stored, LIST};
use mboxalind::{run, translate, Answer, TEXT};

const SCRIPT: &[u8] = include_bytes!("../../samples/whole-session.script");
const TIGHT: &[u8] = include_bytes!("../../samples/tight-frame.script");

#[test]
fn the_whole_session() {
    let mut list = [0x5a; LIST.len() + 2];
    assert_eq!(translate(SCRIPT, &mut list), Answer::Written(LIST.len()));
    assert_eq!(list, *[LIST, b"ZZ"].concat());
    let mut out = [0; 7];
    let answer = run(&list[..LIST.len()], &mut [0; 6], &mut out);
    assert_eq!((answer, &out), (Answer::Written(7), b"a000ff\n"));
}

/// 17 comes last, and a refusal leaves lent memory as it was.
#[test]
fn lent_memory() {
    let mut list = [0x5a; LIST.len()];
    let short = LIST.len() - 1;
    assert_eq!(translate(SCRIPT, &mut list[..short]), refused(17, 0));
    assert_eq!(translate(b"06\n05\n06\n", &mut list), refused(3, 2));
    assert_eq!(translate(b"06\n05\n06\n", &mut []), refused(3, 2));
    assert!(list.iter().all(|b| *b == 0x5a));
    assert_eq!(translate(SCRIPT, &mut list), Answer::Written(LIST.len()));
    assert_eq!(translate(b"", &mut []), refused(17, 0));
}

/// The list, and what it prints over so many cells; both are the model's.
fn translated_and_run(script: &[u8], cells: usize) -> (Vec<u8>, Vec<u8>) {
    let mut list = vec![0; TEXT];
    let bytes = translate(script, &mut list).written().expect("a list");
    list.truncate(bytes);
    assert_eq!(Ok(&list), model::translate(script, TEXT).as_ref());
    let (mut cells, mut out) = (vec![0x5a; 2 * cells], vec![0x5a; 100]);
    let (mut their_cells, mut their_out) = (cells.clone(), out.clone());
    let theirs = model::run(&list, &mut their_cells, &mut their_out);
    assert_eq!(run(&list, &mut cells, &mut out), of_model(theirs));
    assert!(cells == their_cells && out == their_out);
    out.truncate(theirs.expect("a run"));
    (list, out)
}

/// W-211: the list repeats the title and has a smaller frame; it prints what the same frames print without the title.
#[test]
fn a_script_of_edition_2() {
    let title = b"f00002\n";
    let frames = TIGHT.strip_prefix(title).expect("a title");
    let (tight, loads) = translated_and_run(TIGHT, 385);
    let (list, same) = translated_and_run(frames, 897);
    assert!(tight.starts_with(title) && tight.ends_with(b"\n900181\n"));
    assert!(list.ends_with(b"\n900381\n"));
    assert_eq!((&loads[..], loads.len()), (&same[..], 14));
}

/// "`f0` with another number or on a later line is 1."
#[test]
fn titles_that_are_none() {
    let scripts: [&[u8]; 6] = [
        b"f00003\n06\n",
        b"f0\n",
        b"f000020000\n",
        b"f00002",
        b"06\nf00002\n",
        b"f00002\nf00002\n",
    ];
    let mut list = [0x5a; 100];
    for script in scripts {
        let theirs = model::translate(script, 100).map(|list| list.len());
        assert_eq!(theirs.map_err(|r| r.number), Err(1));
        assert_eq!(translate(script, &mut list), of_model(theirs));
    }
    assert!(list.iter().all(|b| *b == 0x5a));
}

/// What the program prints.
fn printed(script: &[u8]) -> Vec<u8> {
    let mut list = vec![0; TEXT];
    // the limit of the program's input isn't the library's: no stored script is that long
    match translate(script, &mut list) {
        Answer::Written(bytes) => list[..bytes].to_vec(),
        Answer::Refused(r) => format!("ee{:02x}{:04x}\n", r.number, r.line).into_bytes(),
    }
}

#[test]
fn the_stored_answers() {
    let records = stored();
    assert_eq!(records.len(), 478);
    for (script, answer) in records {
        assert_eq!(printed(&script), answer);
    }
}
