//! 01, "Sessions to hold", and the whole session of "Script frames".

mod common;
use common::*;

#[test]
fn sessions_a_to_f() {
    accepts("", "900000");
    accepts("080000", "08ffff / 900000");
    let c =
        "01 / 080003 / 10000100ff / 0900070001 / 120007 / 0e0001 / 0c0002 / 020001 / 0f / 06 / 05";
    accepts(
        c,
        "010001 / 080000 / 10000100ff / 09 / 120001 / 0e / 0c / 02 / 0f0003000200000001 / 060000 / 05 / 900003",
    );
    accepts(
        "06 / 06 / 0c0000 / 06",
        "060000 / 060001 / 0c / 060000 / 900002",
    );
    accepts(
        "06 / 06 / 0c0000 / 080002",
        "060000 / 060001 / 0c / 080002 / 900004",
    );
    accepts(
        "06 / 06 / 0c0000 / 080001",
        "060000 / 060001 / 0c / 080000 / 900002",
    );
}

#[test]
fn session_c_runs() {
    let script = text(
        "01 / 080003 / 10000100ff / 0900070001 / 120007 / 0e0001 / 0c0002 / 020001 / 0f / 06 / 05",
    );
    let list = model::translate(&script, 1000).unwrap();
    assert_eq!(machine(&list), Ok(b"a000ff\n".to_vec()));
}

#[test]
fn sessions_g_to_k() {
    refuses("01 / 06 / 020001 / 06 / 0c0000", 14, 4);
    refuses("01 / 030001 / 020001", 5, 2);
    refuses("01 / 01 / 020001", 6, 2);
    accepts(
        "06 / 06 / 0900070000 / 0b0007 / 0900070001 / 0a0007",
        "060000 / 060001 / 09 / 0b0000 / 09 / 0a0001 / 900002",
    );
    accepts(
        "01 / 070000 / 0c0000 / 06",
        "010001 / 070000 / 0c / 060001 / 900002",
    );
}

#[test]
fn sessions_to_run() {
    let allocs = |n| times(n, "06");
    let first = join(&[&allocs(129), &text("0c0005 / 0c0080 / 06")]);
    ends(&first, "0c / 0c / 060080 / 900081");
    let second = join(&[&allocs(127), &text("080002")]);
    ends(&second, "08007f / 900081");
    // with the sizes of W-206: 01 says 1024 and 1025 here
    refuses("081000 / 06", 7, 1);
    accepts("081000", "080000 / 901000");
    refuses("081001", 7, 0);
    let last = join(&[
        &allocs(128),
        &text("01"),
        &allocs(384),
        &text("020001 / 080002 / 06"),
    ]);
    ends(&last, "02 / 080080 / 060100 / 900200");
}

#[test]
fn room_limits() {
    refuses_bytes(&times(64, "01"), 8, 63);
    let handles = text("01 / 081000 / 020001 / 081000 / 06");
    refuses_bytes(&handles, 16, 4);
    let scopes = join(&[&times(63, "01"), &text("02003f / 01")]);
    ends(&scopes, "01003f / 02 / 010040 / 900000");
}
