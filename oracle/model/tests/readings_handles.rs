//! How 01 is read where it leaves a choice (docs/DECISIONS.md): handles and freeing.

mod common;
use common::*;

#[test]
fn not_owned_by_the_top() {
    refuses("06 / 01 / 0c0000", 12, 2);
}

#[test]
fn define_and_forget_ask_for_the_kind_only() {
    accepts(
        "01 / 06 / 020001 / 0900070000 / 0a0007",
        "010001 / 060000 / 02 / 09 / 0a0000 / 900001",
    );
    accepts(
        "01 / 06 / 020001 / 0e0000",
        "010001 / 060000 / 02 / 0e / 900001",
    );
}

#[test]
fn get_of_a_name_whose_slot_was_given_back() {
    accepts(
        "06 / 0900070000 / 0c0000 / 0a0007",
        "060000 / 09 / 0c / 0a0000 / 900001",
    );
}

#[test]
fn read_name_goes_by_the_bindings_own_allocation() {
    refuses(
        "06 / 1000000001 / 0900070000 / 0c0000 / 06 / 1000010002 / 120007",
        14,
        6,
    );
}

#[test]
fn a_freed_handle_that_is_held() {
    accepts(
        "06 / 0e0000 / 1000000005 / 110000",
        "060000 / 0e / 1000000005 / 110000 / 900001",
    );
}

#[test]
fn a_scope_handle_freed_twice() {
    refuses("01 / 070000 / 0c0000 / 020001 / 0c0000", 13, 4);
}

#[test]
fn a_scope_handle_whose_scope_is_closed() {
    accepts(
        "01 / 070001 / 020001 / 0c0000",
        "010001 / 070000 / 02 / 0c / 900001",
    );
}

#[test]
fn ids_differ_by_number() {
    accepts(
        "01 / 070001 / 020001 / 01 / 0c0000",
        "010001 / 070000 / 02 / 010002 / 0c / 900001",
    );
}

#[test]
fn a_root_scope_handle_after_pop_last() {
    accepts("070000 / 05 / 0c0000", "070000 / 05 / 0c / 900001");
}

#[test]
fn a_local_handle_after_pop_last() {
    refuses("06 / 05 / 0c0000", 14, 2);
}

#[test]
fn alloc_in_the_top_is_of_kind_scope() {
    accepts("070000 / 01 / 0c0000", "070000 / 010001 / 0c / 900001");
}

#[test]
fn never_written_is_by_allocation() {
    refuses("06 / 1000000001 / 0c0000 / 06 / 110001", 15, 4);
}

#[test]
fn run_handles_are_freed_one_by_one() {
    accepts("080002 / 0c0000", "080000 / 0c / 900002");
}
