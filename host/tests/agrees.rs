//! `agrees`, as a host calls it: yes, each kind of no, which text a refusal speaks of; the stored answers, and the model beside it.
#![cfg(agrees)]

mod common;

use common::{stored, LIST};
use mboxalind::{agrees, run, translate, Answer, Refusal, Text, Unread, CELLS};
use model::LINES;

const SCRIPT: &[u8] = include_bytes!("../../samples/whole-session.script");
const SUPPLIER: &[u8] = include_bytes!("../../samples/supplier.script");
const PLACED: &[u8] = include_bytes!("../../samples/supplier.list");
const SHARED: &[u8] = include_bytes!("../../samples/supplier-shared.list");

/// Lines with ` / ` between them.
fn text(lines: &str) -> Vec<u8> {
    let ended = |line: &str| format!("{}\n", line.trim()).into_bytes();
    lines.split('/').flat_map(ended).collect()
}

/// The answer, which is the model's; both texts stay as they are.
#[track_caller]
fn asked(script: &[u8], list: &[u8]) -> Result<bool, Unread> {
    let (before, shown) = (script.to_vec(), list.to_vec());
    let answer = agrees(script, list);
    assert!(script == before && list == shown);
    let number = match answer {
        Ok(yes) => u64::from(yes),
        Err(Unread { refusal, .. }) => (u64::from(refusal.number) << 32) + u64::from(refusal.line),
    };
    assert_eq!(number, model::agrees(script, list));
    answer
}

#[track_caller]
fn says(yes: bool, script: &str, list: &str) {
    assert_eq!(asked(&text(script), &text(list)), Ok(yes));
}

#[track_caller]
fn unread(script: &[u8], list: &[u8], text: Text, number: u8, line: u32) {
    let refusal = Refusal { number, line };
    assert_eq!(asked(script, list), Err(Unread { text, refusal }));
}

/// What a list prints.
fn printed(list: &[u8]) -> Vec<u8> {
    let (mut cells, mut out) = (vec![0; 2 * CELLS], vec![0; 200]);
    let bytes = run(list, &mut cells, &mut out).written().expect("a run");
    out.truncate(bytes);
    out
}

#[test]
fn the_samples() {
    assert_eq!(asked(SCRIPT, LIST), Ok(true));
    assert_eq!(asked(SUPPLIER, PLACED), Ok(true));
    assert_eq!(asked(SUPPLIER, SHARED), Ok(false));
    let mut list = [0; 400];
    let bytes = translate(SUPPLIER, &mut list).written().expect("a list");
    assert_eq!(printed(PLACED), printed(&list[..bytes]));
    // the total, 0064, was overwritten by the temporary 0004
    assert_eq!(printed(PLACED), b"a00003\na00004\na00064\na00009\n");
    assert_eq!(printed(SHARED), b"a00003\na00004\na00004\na00009\n");
}

#[test]
fn each_kind_of_no() {
    let script = "06 / 1000000007 / 080002 / 0900010000 / 120001 / 0c0000 / 0f / 080000";
    let list = "060005 / 1000050007 / 080002 / 09 / 120005 / 0c / 0f00010005 / 08ffff / 900006";
    says(true, script, list);
    let others = [
        ("060005", "070005"),
        ("1000050007", "1000050008"),
        ("1000050007", "1000040007"),
        ("080002", "080004"),
        ("080002", "080fff"),
        ("120005", "120002"),
        ("0f00010005", "0f0000"),
        ("0f00010005", "0f00010002"),
        ("08ffff", "080000"),
        (" / 08ffff", ""),
        ("900006", "0f0000 / 900006"),
        ("900006", "900005"),
        ("060005", "f00002 / 060005"),
    ];
    for (right, wrong) in others {
        says(false, script, &list.replacen(right, wrong, 1));
    }
    says(true, script, &list.replace("900006", "901000"));
}

/// What our own rules refuse gets a no, 7 too.
#[test]
fn scripts_that_our_rules_refuse() {
    says(false, "081001", "080000 / 901000");
    says(false, "05 / 06", "05 / 060000 / 900001");
    // the list has room for its run, ours is behind the greatest slot that is held
    let script = "081000 / 0c0000 / 0c0001 / 080002";
    says(false, script, "080000 / 0c / 0c / 080000 / 901000");
}

#[test]
fn a_title_stands_on_both_or_on_none() {
    says(true, "f00002 / 06", "f00002 / 060007 / 900008");
    says(false, "f00002 / 06", "060007 / 900008");
    says(false, "06", "f00002 / 060007 / 900008");
}

/// "Refusals: the text numbers 1 and 2, script before list."
#[test]
fn which_text_is_refused() {
    unread(b"06\nzz\n", b"yy\n", Text::Script, 1, 1);
    unread(b"06\n", b"060000\n", Text::List, 1, 1);
    unread(b"06\n", b"", Text::List, 1, 0);
    unread(b"081001\n", b"zz\n", Text::List, 1, 0);
    let long = b"0f\n".repeat(LINES + 1);
    unread(&long, b"yy\n", Text::Script, 2, LINES as u32);
    let list = [&b"0f0000\n".repeat(LINES + 1)[..], b"900000\n"].concat();
    unread(&long[3..], &list, Text::List, 2, LINES as u32);
    let said = agrees(b"06\n", b"06\n").map_err(|unread| unread.to_string());
    let words = mboxalind::words(1);
    assert_eq!(
        said,
        Err(format!("the list is refused by 1 at line 0: {words}"))
    );
}

#[test]
fn nothing_at_all() {
    assert_eq!(asked(b"", b"900000\n"), Ok(true));
    unread(b"", b"", Text::List, 1, 0);
}

/// "Every list that we write gets a yes"; with one byte of it another, it gets the model's answer.
#[test]
fn the_stored_answers() {
    let (mut accepted, mut no, mut unreadable) = (0, 0, 0);
    for (script, mut list) in stored() {
        if list.starts_with(b"ee") {
            continue;
        }
        assert_eq!(asked(&script, &list), Ok(true));
        let mut room = vec![0; list.len()];
        assert_eq!(translate(&script, &mut room), Answer::Written(list.len()));
        accepted += 1;
        for bend in 0..4 {
            let at = (accepted * 31 + bend * 97) % list.len();
            list[at] = b"0f91"[bend];
            match asked(&script, &list) {
                Ok(yes) => no += usize::from(!yes),
                Err(_) => unreadable += 1,
            }
        }
    }
    assert!(
        accepted > 300 && no > 100 && unreadable > 300,
        "{accepted} {no} {unreadable}"
    );
}
