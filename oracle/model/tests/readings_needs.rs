//! How W-201 of 02 is read (docs/DECISIONS.md): needs in scripts.

mod common;
use common::*;

/// "at most 64 in a script": freed ones count, for numbers are never used again.
#[test]
fn freed_needs_count() {
    let full = times(64, "22");
    ends(&full, "22003f / 900000");
    refuses_bytes(&join(&[&full, &text("250000 / 22")]), 22, 65);
}

#[test]
fn an_allocated_need_whose_scope_has_closed() {
    accepts(
        "01 / 200001 / 230000 / 020001 / 230000",
        "010001 / 200000 / 230000 / 02 / 230000 / 900001",
    );
    accepts(
        "01 / 200001 / 230000 / 020001 / 240000 / 250000",
        "010001 / 200000 / 230000 / 02 / 240000 / 25 / 900001",
    );
}

#[test]
fn a_deferred_need_whose_scope_has_closed() {
    refuses("01 / 200001 / 020001 / 230000", 4, 3);
    refuses("200000 / 05 / 230000", 4, 2);
    // .. also where another scope has its index
    refuses("01 / 200001 / 020001 / 01 / 230000", 4, 4);
}

#[test]
fn define_of_a_needs_handle() {
    accepts(
        "200000 / 230000 / 0900070000",
        "200000 / 230000 / 09 / 900001",
    );
    refuses("200000 / 230000 / 250000 / 0900070000", 13, 3);
}

#[test]
fn a_needs_handle_is_written_and_read_but_not_freed() {
    accepts(
        "200000 / 230000 / 1000000005 / 110000",
        "200000 / 230000 / 1000000005 / 110000 / 900001",
    );
    for frame in ["0c0000", "0d0000", "0e0000"] {
        refuses(&format!("200000 / 230000 / {frame}"), 13, 2);
        refuses(&format!("200000 / 230000 / 250000 / {frame}"), 13, 3);
    }
}

#[test]
fn assigned_takes_any_known_handle() {
    accepts(
        "01 / 06 / 020001 / 210000",
        "010001 / 060000 / 02 / 210000 / 900001",
    );
    accepts(
        "06 / 0c0000 / 210000 / 240000",
        "060000 / 0c / 210000 / 240000 / 900001",
    );
    accepts(
        "200000 / 230000 / 210000 / 250000 / 230001",
        "200000 / 230000 / 210001 / 25 / 230000 / 900001",
    );
    refuses("06 / 210001", 13, 1);
}

#[test]
fn an_assigned_need_leaves_the_handle_alone() {
    accepts(
        "06 / 210000 / 250000 / 0c0000",
        "060000 / 210000 / 25 / 0c / 900001",
    );
    // a need's handle stays the need's
    refuses("200000 / 230000 / 210000 / 250001 / 0c0000", 13, 4);
}

#[test]
fn a_need_freed_away_from_its_scope_keeps_the_slot() {
    accepts(
        "200000 / 230000 / 1000000005 / 01 / 250000 / 110000",
        "200000 / 230000 / 1000000005 / 010001 / 25 / 110000 / 900001",
    );
    refuses("200000 / 230000 / 1000000005 / 250000 / 110000", 14, 4);
}

#[test]
fn the_slot_that_a_need_gives_back_dangles() {
    accepts(
        "200000 / 230000 / 250000 / 0f",
        "200000 / 230000 / 25 / 0f00010000 / 900001",
    );
}

#[test]
fn after_pop_last() {
    accepts("05 / 22 / 230000", "05 / 220000 / 23ffff / 900000");
    accepts(
        "06 / 05 / 210000 / 230000 / 240000 / 250000",
        "060000 / 05 / 210000 / 230000 / 240000 / 25 / 900001",
    );
    accepts(
        "200000 / 230000 / 05 / 250000",
        "200000 / 230000 / 05 / 25 / 900001",
    );
    refuses("05 / 200000", 4, 1);
}

/// 14 and 12 can't be met by 25: where the need's scope is the top, the slot is held and the top owns it.
#[test]
fn a_need_freed_after_its_scope_was_closed() {
    accepts(
        "01 / 200001 / 230000 / 020001 / 01 / 250000 / 06",
        "010001 / 200000 / 230000 / 02 / 010002 / 25 / 060000 / 900001",
    );
}

/// "22 a 65th need, after 4 or 13"
#[test]
fn a_65th_need_comes_after_4_and_13() {
    let full = times(64, "22");
    let then = |frame: &str| join(&[&full, &text(frame)]);
    refuses_bytes(&then("200001"), 4, 64);
    refuses_bytes(&then("200000"), 22, 64);
    refuses_bytes(&then("210000"), 13, 64);
    refuses_bytes(&then("22"), 22, 64);
    let one = join(&[b"06\n", &full, b"210000\n"]);
    refuses_bytes(&one, 22, 65);
}

/// "21 need unknown or freed, checked first"
#[test]
fn needs_unknown_or_freed() {
    for frame in ["230000", "240000", "250000"] {
        refuses(frame, 21, 0);
        refuses(&format!("22 / 250000 / {frame}"), 21, 2);
        refuses(&format!("200000 / 05 / 250000 / {frame}"), 21, 3);
    }
    refuses("22 / 230001", 21, 1);
    refuses("22 / 23ffff", 21, 1);
}

#[test]
fn outputs() {
    refuses("200000 / 240000", 18, 1);
    accepts("22 / 240000", "220000 / 24ffff / 900000");
    accepts(
        "06 / 06 / 210001 / 240000 / 230000",
        "060000 / 060001 / 210000 / 240001 / 230001 / 900002",
    );
}

/// "The first 23 on a deferred need takes the next handle": the second takes none.
#[test]
fn one_handle_a_need() {
    accepts(
        "200000 / 230000 / 230000 / 06 / 1000010007 / 110001",
        "200000 / 230000 / 230000 / 060001 / 1000010007 / 110001 / 900002",
    );
}

/// "on 23 of a deferred need 4 .., 16, 7"
#[test]
fn no_handle_or_no_slot_for_a_need() {
    refuses("081000 / 200000 / 230000", 7, 2);
    refuses("01 / 081000 / 020001 / 081000 / 200000 / 230000", 16, 5);
    refuses("01 / 200001 / 081000 / 020001 / 081000 / 230000", 4, 5);
    // a need that was allocated asks for neither
    ends(
        &text("200000 / 230000 / 080fff / 230000"),
        "080001 / 230000 / 901000",
    );
}

#[test]
fn the_machine_skips_the_lines_of_needs() {
    let list =
        text("200000 / 210001 / 220002 / 230000 / 24ffff / 25 / 1000000009 / 110000 / 900001");
    assert_eq!(machine(&list), Ok(b"a00009\n".to_vec()));
    for line in ["20", "2000000000", "22", "23", "250000", "260000"] {
        list_refused(&text(&format!("{line} / 900000")), 1, 0);
    }
}

#[test]
fn the_text_of_frames() {
    for line in [
        "20",
        "21",
        "220000",
        "23",
        "24",
        "25",
        "2000000000",
        "26",
        "1f",
    ] {
        refuses(line, 1, 0);
    }
}
