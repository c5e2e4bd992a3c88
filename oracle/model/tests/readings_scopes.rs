//! How 01 is read where it leaves a choice (docs/DECISIONS.md): scopes, slots, allocation.

mod common;
use common::*;
use model::translate;

#[test]
fn pop_of_a_scope_that_is_not_the_top() {
    accepts(
        "01 / 030001 / 01 / 040001 / 020002 / 06 / 0c0000",
        "010001 / 03 / 010002 / 04 / 02 / 060000 / 0c / 900001",
    );
}

#[test]
fn dangle_of_a_scope_with_a_child() {
    accepts("01 / 01 / 030001", "010001 / 010002 / 03 / 900000");
}

#[test]
fn a_dangled_scope_as_top() {
    refuses("01 / 01 / 030001 / 020002 / 06 / 020001", 5, 5);
    accepts(
        "01 / 01 / 030001 / 020002 / 06 / 0c0000",
        "010001 / 010002 / 03 / 02 / 060000 / 0c / 900001",
    );
}

#[test]
fn alloc_in_a_dangled_scope() {
    accepts("01 / 030001 / 070001", "010001 / 03 / 070000 / 900001");
}

#[test]
fn root_is_5_while_it_lives_and_4_after() {
    refuses("05 / 020000", 4, 1);
    refuses("020000", 5, 0);
    refuses("030000", 5, 0);
    refuses("040000", 5, 0);
}

#[test]
fn names_in_a_dangled_scope() {
    refuses("06 / 01 / 0900070000 / 030001 / 0a0007", 10, 4);
    accepts(
        "06 / 01 / 0900070000 / 030001 / 040001 / 0a0007",
        "060000 / 010001 / 09 / 03 / 04 / 0a0000 / 900001",
    );
}

fn defines(names: std::ops::Range<u16>) -> Vec<u8> {
    let lines: Vec<String> = names.map(|n| format!("09{n:04x}0000")).collect();
    text(&lines.join("/"))
}

#[test]
fn moved_bindings_count() {
    let full = join(&[b"06\n", &defines(0..256), b"0b0000\n"]);
    refuses_bytes(&join(&[&full, b"0901000000\n"]), 9, 258);
    ends(
        &join(&[&full, b"0900000000\n0a0000\n"]),
        "09 / 0a0000 / 900001",
    );
}

#[test]
fn take_marks_the_parents_binding() {
    refuses("06 / 0900070000 / 01 / 0b0007 / 020001 / 0a0007", 11, 5);
}

#[test]
fn the_nearest_binding_decides() {
    refuses("06 / 0900070000 / 01 / 0900070000 / 0b0007 / 0a0007", 11, 5);
}

#[test]
fn drain_after_pop_last() {
    accepts("06 / 05 / 0f", "060000 / 05 / 0f00010000 / 900001");
    accepts("06 / 05 / 0e0000", "060000 / 05 / 0e / 900001");
}

#[test]
fn gives_7_while_slots_are_clear() {
    refuses("081000 / 0c0000 / 0c0fff / 06 / 06", 7, 4);
}

#[test]
fn a_run_of_1_acts_as_alloc() {
    accepts("081000 / 0c0000 / 080001", "080000 / 0c / 080000 / 901000");
}

#[test]
fn the_empty_run() {
    refuses("05 / 080000", 3, 1);
    accepts("081000 / 080000", "080000 / 08ffff / 901000");
    let full = "01 / 081000 / 020001 / 081000 / 080000";
    accepts(full, "010001 / 080000 / 02 / 080000 / 08ffff / 901000");
}

/// A45, and A106: "linear 2,049 to 8,192: once 16, now 7 above 4,096 and 16 above 8,192".
#[test]
fn gives_16_before_7() {
    refuses("082001", 16, 0);
    refuses("082000", 7, 0);
    refuses("081001", 7, 0);
    for once in ["080801", "081000"] {
        let first = text(once);
        let list = translate(&first, 14).expect("accepted");
        assert_eq!(list, [b"080000\n90", &first[2..]].concat());
    }
}

#[test]
fn the_head_after_pop_is_that_of_the_last_on_the_list() {
    let filled = join(&[b"01\n", &times(129, "06")]);
    let freed = join(&[&filled, &text("0c0005 / 06 / 020001 / 06")]);
    ends(&freed, "0c / 060005 / 02 / 060000 / 900081");
    ends(
        &join(&[&filled, &text("020001 / 06")]),
        "02 / 060080 / 900081",
    );
}

#[test]
fn an_empty_run_hands_out_nothing() {
    accepts(
        "080000 / 06 / 1000000001",
        "08ffff / 060000 / 1000000001 / 900001",
    );
}

#[test]
fn gives_11_before_14_and_15() {
    refuses("06 / 0900070000 / 0b0007 / 120007", 11, 3);
}

#[test]
fn the_size_never_shrinks() {
    accepts(
        "01 / 080003 / 020001 / 05",
        "010001 / 080000 / 02 / 05 / 900003",
    );
}

#[test]
fn an_address_given_again_dangles_at_the_end() {
    accepts(
        "080002 / 0c0000 / 0c0001 / 06 / 0c0002 / 0f",
        "080000 / 0c / 0c / 060000 / 0c / 0f000200010000 / 900002",
    );
}

#[test]
fn freed_without_dangling() {
    accepts(
        "06 / 0c0000 / 06 / 0d0001 / 0f",
        "060000 / 0c / 060000 / 0d / 0f0000 / 900001",
    );
}
