//! How W-203 of 02 is read (docs/DECISIONS.md): which lists from elsewhere get a yes, and why the others get a no.

mod common;
use common::*;
use model::{
    agrees, checker, translate, verdict, verdict_with, Fault, Flaw, Refusal, Verdict, Why, BUFFER,
    LINES,
};

#[track_caller]
fn yes(script: &str, list: &str) {
    assert_eq!(verdict(&text(script), &text(list)), Ok(Verdict::Yes));
    assert_eq!(agrees(&text(script), &text(list)), 1);
    assert_eq!(checker(&text(script), &text(list)), b"yes\n");
}

#[track_caller]
fn no(script: &str, list: &str, why: Why) {
    assert_eq!(verdict(&text(script), &text(list)), Ok(Verdict::No(why)));
    assert_eq!(agrees(&text(script), &text(list)), 0);
    assert_eq!(checker(&text(script), &text(list)), b"no\n");
}

#[track_caller]
fn flawed(script: &str, list: &str, line: usize, flaw: Flaw) {
    no(script, list, Why::Line(line, flaw));
}

#[track_caller]
fn unread(script: &[u8], list: &[u8], number: u8, line: usize) {
    assert_eq!(verdict(script, list), Err(Refusal { number, line }));
    assert_eq!(
        agrees(script, list),
        (u64::from(number) << 32) + line as u64
    );
    let printed = format!("ee{number:02x}{line:04x}\n");
    assert_eq!(checker(script, list), printed.into_bytes());
}

const SESSION: &str =
    "01 / 080003 / 10000100ff / 0900070001 / 120007 / 0e0001 / 0c0002 / 020001 / 0f / 06 / 05";

/// "Every list that we write gets a yes."
#[test]
fn our_own_list() {
    let list = translate(&text(SESSION), usize::MAX).expect("a list");
    assert_eq!(verdict(&text(SESSION), &list), Ok(Verdict::Yes));
    yes("", "900000");
    yes("f00002", "f00002 / 900000");
}

/// .. and so does one that is placed otherwise: the run at 5, the last slot at 9.
#[test]
fn the_session_placed_otherwise() {
    let list = "010001 / 080005 / 10000600ff / 09 / 120006 / 0e / 0c / 02 / 0f0003000700050006 / 060009 / 05 / 90000a";
    yes(SESSION, list);
    assert_eq!(machine(&text(list)), Ok(b"a000ff\n".to_vec()));
}

/// A94: a script that is refused by a step gets a no.
#[test]
fn scripts_that_our_rules_refuse() {
    let refused = |number, line| Why::Refused(Refusal { number, line });
    no("081001", "080000 / 901000", refused(7, 0));
    no("05 / 06", "05 / 060000 / 900001", refused(3, 1));
    no(
        "f00002 / 05 / 06",
        "f00002 / 05 / 060000 / 900001",
        refused(3, 2),
    );
    // by the head there is no slot left, though one is clear
    let full = "081000 / 0c0000 / 0c0fff / 06";
    yes(full, "080000 / 0c / 0c / 060000 / 901000");
    let list = "080000 / 0c / 0c / 060fff / 060000 / 901000";
    no(&format!("{full} / 06"), list, refused(7, 4));
    yes(
        &format!("f00002 / {full} / 06"),
        &format!("f00002 / {list}"),
    );
}

/// A95: "every address is below the size", and it isn't 20.
#[test]
fn addresses_and_the_size() {
    no("06", "060001 / 900001", Why::Size(2));
    no("06", "060000 / 900000", Why::Size(1));
    yes("06", "060001 / 900002");
    no(
        "06 / 1000000007",
        "060003 / 1000030007 / 900003",
        Why::Size(4),
    );
    no("080003", "080001 / 900003", Why::Size(4));
    // a slot that went back counts
    no("06 / 0c0000", "060005 / 0c / 900005", Why::Size(6));
}

/// A96: a size larger than needed, up to 4,096.
#[test]
fn a_size_larger_than_needed() {
    yes("06", "060000 / 901000");
    yes("06", "060fff / 901000");
    unread(b"06\n", b"060000\n901001\n", 1, 1);
}

/// A97: the address of a name whose allocation isn't held any more.
#[test]
fn a_name_of_what_is_not_held() {
    let script = "06 / 0900070000 / 0c0000 / 0a0007";
    flawed(
        script,
        "060003 / 09 / 0c / 0a0004 / 900005",
        3,
        Flaw::Address,
    );
    yes(script, "060003 / 09 / 0c / 0a0003 / 900005");
}

/// A100: giving an address takes it off the dangling list, each release puts it at the end unless there.
#[test]
fn drains_over_the_lists_own_addresses() {
    let script = "06 / 0c0000 / 06 / 0f";
    yes(script, "060000 / 0c / 060001 / 0f00010000 / 900002");
    yes(script, "060000 / 0c / 060000 / 0f0000 / 900001");
    flawed(
        script,
        "060000 / 0c / 060001 / 0f0000 / 900002",
        3,
        Flaw::Count,
    );
    flawed(
        script,
        "060000 / 0c / 060001 / 0f00010001 / 900002",
        3,
        Flaw::Drained,
    );
    let two = "080002 / 0c0000 / 0c0001 / 0f";
    yes(two, "080006 / 0c / 0c / 0f000200060007 / 900008");
    flawed(
        two,
        "080006 / 0c / 0c / 0f000200070006 / 900008",
        3,
        Flaw::Drained,
    );
}

#[test]
fn slots_that_are_held() {
    let held = |slot, handle| Flaw::Held { slot, handle };
    flawed("06 / 06", "060003 / 060003 / 900004", 1, held(3, 0));
    yes("06 / 0c0000 / 06", "060003 / 0c / 060003 / 900004");
    // forgotten, and still held
    flawed(
        "06 / 0e0000 / 06",
        "060003 / 0e / 060003 / 900004",
        2,
        held(3, 0),
    );
    flawed("080003 / 080002", "080002 / 080001 / 900005", 1, held(2, 0));
    flawed("06 / 080003", "060003 / 080001 / 900004", 1, held(3, 0));
    yes("06 / 080003", "060003 / 080000 / 900004");
    flawed(
        "06 / 200000 / 230000",
        "060003 / 200000 / 230003 / 900004",
        2,
        held(3, 0),
    );
}

#[test]
fn slots_that_are_not_there() {
    flawed("06", "061000 / 901000", 0, Flaw::Beyond);
    flawed("06", "06ffff / 901000", 0, Flaw::Beyond);
    flawed("080002", "080fff / 901000", 0, Flaw::Beyond);
    flawed("080002", "08ffff / 901000", 0, Flaw::Beyond);
    yes("080002", "080ffe / 901000");
    yes("081000", "080000 / 901000");
    flawed("081000", "080001 / 901000", 0, Flaw::Beyond);
    flawed(
        "200000 / 230000",
        "200000 / 23ffff / 900001",
        1,
        Flaw::Beyond,
    );
}

/// "an empty run, or a need with none, shows `ffff`"
#[test]
fn where_there_is_no_address() {
    yes("080000", "08ffff / 900000");
    flawed("080000", "080000 / 900001", 0, Flaw::NotNone);
    let ignored = "22 / 230000 / 240000";
    yes(ignored, "220000 / 23ffff / 24ffff / 900000");
    flawed(
        ignored,
        "220000 / 230000 / 24ffff / 900001",
        1,
        Flaw::NotNone,
    );
    flawed(
        ignored,
        "220000 / 23ffff / 240000 / 900001",
        2,
        Flaw::NotNone,
    );
}

/// "each later line shows its allocation's own address"
#[test]
fn later_lines() {
    let script = "06 / 1000000007 / 110000 / 140000 / 0900010000 / 120001 / 0a0001 / 0b0001 / 200000 / 230000 / 230000 / 240000 / 210000 / 240001";
    let list = "060004 / 1000040007 / 110004 / 140004 / 09 / 120004 / 0a0004 / 0b0004 / 200000 / 230002 / 230002 / 240002 / 210001 / 240004 / 900005";
    yes(script, list);
    let lines: Vec<&str> = list.split(" / ").collect();
    for i in [1, 2, 3, 5, 6, 7, 10, 11, 13] {
        let mut other = lines.clone();
        let line = format!("{}0001{}", &lines[i][..2], &lines[i][6..]);
        other[i] = &line;
        flawed(script, &other.join(" / "), i, Flaw::Address);
    }
}

/// "the same lines and operands but for addresses, drain counts and size"
#[test]
fn other_lines_and_operands() {
    flawed("06", "070000 / 900001", 0, Flaw::Opcode);
    flawed("06 / 0c0000", "060000 / 0d / 900001", 1, Flaw::Opcode);
    flawed("01", "010002 / 900000", 0, Flaw::Operand);
    flawed("22 / 22", "220000 / 220000 / 900000", 1, Flaw::Operand);
    let write = "06 / 1000000007";
    flawed(write, "060000 / 1000000008 / 900001", 1, Flaw::Operand);
    flawed(write, "060000 / 140000 / 900001", 1, Flaw::Opcode);
    flawed("06 / 06", "060000 / 900001", 1, Flaw::TooFew);
    flawed("06", "060000 / 060001 / 900002", 1, Flaw::TooMany);
    flawed("", "0f0000 / 900000", 0, Flaw::TooMany);
}

/// A title is a line as others are.
#[test]
fn titles() {
    yes("f00002 / 06", "f00002 / 060007 / 900008");
    flawed("f00002 / 06", "060007 / 900008", 0, Flaw::Title);
    flawed("06", "f00002 / 060007 / 900008", 0, Flaw::Title);
    flawed("", "f00002 / 900000", 0, Flaw::Title);
    flawed("f00002", "900000", 0, Flaw::Title);
    flawed("f00002 / 06", "f00002 / 070000 / 900001", 1, Flaw::Opcode);
    flawed("f00002 / 06", "f00002 / 900001", 1, Flaw::TooFew);
}

/// "Refusals: the text numbers 1 and 2, script before list."
#[test]
fn refusals_of_the_texts() {
    unread(b"zz\n", b"yy\n", 1, 0);
    unread(b"06\nzz\n", b"yy\n", 1, 1);
    unread(b"06\n", b"060000\nyy\n", 1, 1);
    unread(b"06\n", b"060000\n", 1, 1);
    unread(b"06\n", b"", 1, 0);
    unread(b"06", b"060000\n900001\n", 1, 0);
    unread(&times(LINES + 1, "0f"), b"yy\n", 2, LINES);
    unread(&times(LINES, "0f"), b"yy\n", 1, 0);
    let long = join(&[&times(LINES + 1, "0f0000"), b"900000\n"]);
    unread(&times(LINES, "0f"), &long, 2, LINES);
    // what a step refuses comes after the list's text
    unread(b"081001\n", b"yy\n", 1, 0);
    let first = verdict_with(b"06\nzz\n", b"yy\n", Some(Fault::ListFirst));
    assert_eq!(first, Err(Refusal { number: 1, line: 0 }));
}

/// 17 is the program's: either text is longer than its buffer.
#[test]
fn texts_longer_than_the_buffer() {
    let long = vec![b'0'; BUFFER + 1];
    for (script, list) in [(&long[..], &b"900000\n"[..]), (b"zz\n", &long)] {
        assert_eq!(checker(script, list), b"ee110000\n");
    }
    assert_eq!(checker(&long[1..], b"900000\n"), b"ee010000\n");
}
