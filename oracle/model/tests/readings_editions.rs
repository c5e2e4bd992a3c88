//! How W-211 of 02 is read (docs/DECISIONS.md): the title, in scripts and in lists, and where edition 2 places.

mod common;
use common::*;
use model::{runner, translate, translator, Frame, Placement, Session, LINES, SLOTS};

/// The script with the title before it.
fn titled(script: &[u8]) -> Vec<u8> {
    join(&[b"f00002\n", script])
}

/// The list of the same frames in edition 1 and in edition 2 ends with these lines.
#[track_caller]
fn editions(script: &[u8], first: &str, second: &str) {
    ends(script, first);
    ends(&titled(script), second);
}

#[test]
fn the_title_alone() {
    accepts("f00002", "f00002 / 900000");
    assert_eq!(translate(b"f00002\n", 14), Ok(b"f00002\n900000\n".to_vec()));
    assert!(translate(b"f00002\n", 13).is_err_and(|r| (r.number, r.line) == (17, 0)));
    assert_eq!(machine(b"f00002\n900000\n"), Ok(vec![]));
}

#[test]
fn another_number_or_another_line() {
    for title in ["f00003", "f00001", "f00000", "f0ffff", "f0", "f000020000"] {
        refuses(title, 1, 0);
        refuses(&format!("{title} / 06"), 1, 0);
        refuses(&format!("06 / {title}"), 1, 1);
    }
    refuses("06 / f00002", 1, 1);
    refuses("f00002 / f00002", 1, 1);
    refuses("f00002 / 06 / f00002", 1, 2);
    refuses("f00002 / f00003", 1, 1);
    refuses_bytes(b"F00002\n06\n", 1, 0);
    refuses_bytes(b"\nf00002\n", 1, 0);
}

#[test]
fn a_torn_title() {
    refuses_bytes(b"f00002", 1, 0);
    refuses_bytes(b"f0000", 1, 0);
    refuses_bytes(b"f00002\r\n06\n", 1, 0);
    list_refused(b"f00002", 1, 0);
}

/// A139.
#[test]
fn the_title_in_lists() {
    list_refused(b"0f0000\nf00002\n900000\n", 1, 1);
    list_refused(b"f00002\nf00002\n900000\n", 1, 1);
    for title in ["f00003", "f00001", "f0", "f000020000"] {
        list_refused(&text(&format!("{title} / 900000")), 1, 0);
    }
    list_refused(b"f00002\n", 1, 1);
    list_refused(b"900000\nf00002\n", 1, 0);
    let list = b"f00002\n1000000007\n110000\n900001\n";
    assert_eq!(machine(list), Ok(b"a00007\n".to_vec()));
    assert_eq!(runner(list), b"a00007\n");
}

/// "That line counts as a frame": lines are numbered with it.
#[test]
fn the_title_is_line_0() {
    refuses("f00002 / 05 / 06", 3, 2);
    refuses("f00002 / 081001", 7, 1);
    refuses("f00002 / 06 / zz", 1, 2);
    assert_eq!(translator(b"f00002\n05\n06\n"), b"ee030002\n");
    list_refused(b"f00002\n110000\n900000\n", 20, 1);
    list_refused(b"f00002\n140000\n900001\n", 23, 1);
    recorded_refused(b"f00002\n140000\n140000\n900001\n", b"300001\n", 23, 2);
    let sampled = b"f00002\n140000\n110000\n900001\n";
    assert_eq!(
        recorded(sampled, b"30abcd\n300000\n"),
        Ok((b"a0abcd\n".to_vec(), 1))
    );
}

/// .. and it is one of the 2,048.
#[test]
fn the_title_takes_a_frames_place() {
    let lines = titled(&times(LINES - 1, "0f0000"));
    accepts_bytes(
        &titled(&times(LINES - 1, "0f")),
        &join(&[&lines, b"900000\n"]),
    );
    refuses_bytes(&titled(&times(LINES, "0f")), 2, LINES);
    refuses_bytes(&titled(&join(&[&times(LINES - 1, "0f"), b"0"])), 2, LINES);
    assert_eq!(machine(&join(&[&lines, b"901000\n"])), Ok(vec![]));
    list_refused(&lines, 1, LINES);
    list_refused(&join(&[&lines, b"0f0000\n900000\n"]), 2, LINES);
    list_refused(&join(&[&lines, b"f00002\n900000\n"]), 2, LINES);
}

#[test]
fn the_lowest_slot_whatever_was_removed_last() {
    let session = join(&[&times(129, "06"), &text("0c0005 / 0c0080 / 06")]);
    editions(&session, "060080 / 900081", "060005 / 900081");
}

/// The head is above the hole: edition 1 doesn't find it.
#[test]
fn a_hole_below_the_head_of_a_full_frame() {
    let holes = text("081000 / 0c0005 / 0c0800 / 06");
    editions(&holes, "060800 / 901000", "060005 / 901000");
    let once_more = join(&[&holes, b"06\n"]);
    refuses_bytes(&once_more, 7, 4);
    ends(&titled(&once_more), "060005 / 060800 / 901000");
    refuses_bytes(&titled(&join(&[&once_more, b"06\n"])), 7, 6);
}

/// 06, 07, 08 of one and 23 are inserts; a run of two or more is pushed in both editions.
#[test]
fn each_frame_that_inserts() {
    let holes = text("080101 / 0c0005 / 0c0100");
    let then = |more: &str| join(&[&holes, &text(more)]);
    editions(&then("06"), "060100 / 900101", "060005 / 900101");
    editions(&then("070000"), "070100 / 900101", "070005 / 900101");
    editions(&then("080001"), "080100 / 900101", "080005 / 900101");
    editions(
        &then("200000 / 230000"),
        "230100 / 900101",
        "230005 / 900101",
    );
    editions(&then("080002"), "080100 / 900102", "080100 / 900102");
    editions(&then("080000"), "08ffff / 900101", "08ffff / 900101");
}

/// "The head makes frames larger than needed": what stays after a long run was closed lies below the next one.
#[test]
fn a_smaller_frame() {
    let script = text("01 / 080180 / 020001 / 06 / 080180");
    editions(
        &script,
        "060100 / 080101 / 900281",
        "060000 / 080001 / 900181",
    );
}

/// .. but no placement is best for all: here the slot that stays is a low one in edition 1 alone.
#[test]
fn a_larger_frame() {
    let script =
        text("01 / 080082 / 0c0005 / 0c0080 / 06 / 0c0006 / 06 / 070000 / 020001 / 080080");
    editions(
        &script,
        "060005 / 070006 / 02 / 080007 / 900087",
        "060006 / 070080 / 02 / 080081 / 900101",
    );
}

/// "an alloc past 3 and 16 is refused by 7 exactly if every slot is held": with one hole, wherever it is, there is a slot.
#[test]
fn refused_by_7_exactly_if_every_slot_is_held() {
    let mut session = Session::new(Placement::Lowest, None);
    session
        .step(Frame::Linear(SLOTS as u16))
        .expect("all slots");
    for hole in 0..SLOTS as u16 {
        assert_eq!(session.step(Frame::Alloc), Err(7));
        session.step(Frame::Free(hole)).expect("its own handle");
        let given = session.step(Frame::Alloc).map(|line| line.operands);
        assert_eq!(given, Ok(vec![hole]));
    }
    let no_top = text("f00002 / 081000 / 05 / 06");
    refuses_bytes(&no_top, 3, 3);
    refuses("f00002 / 01 / 081000 / 020001 / 081000 / 06", 16, 5);
}
