//! W-206, "Four thousand slots": what stands at the last slot and at the last handle, and the longest list.

mod common;
use common::*;
use model::{
    runner, translator, Fault, Placement, Slots, BUFFER, HANDLES, LINES, SEGMENT, SEGMENTS, SLOTS,
};

/// Each slot is given by an insert, in either edition, and then none.
#[test]
fn every_slot_by_inserts() {
    for placement in [Placement::ByHead, Placement::Lowest] {
        let mut slots = Slots::new(placement, None);
        for slot in 0..SLOTS {
            assert_eq!(slots.insert(), Some(slot));
            assert_eq!(slots.length(), slot / SEGMENT + 1);
        }
        assert_eq!((slots.insert(), slots.push()), (None, None));
        assert_eq!(slots.length(), SEGMENTS);
    }
}

#[test]
fn the_last_slot() {
    accepts("080fff / 06", "080000 / 060fff / 901000");
    refuses("080fff / 06 / 06", 7, 2);
    refuses("080fff / 080002", 7, 1);
    accepts(
        "080ffe / 080002 / 100fff0001",
        "080000 / 080ffe / 100fff0001 / 901000",
    );
    accepts(
        "081000 / 100fff00ff / 110fff / 0c0fff / 0f",
        "080000 / 100fff00ff / 110fff / 0c / 0f00010fff / 901000",
    );
    assert_eq!(runner(b"100fff00ff\n110fff\n901000\n"), b"a000ff\n");
}

/// Segments past the eighth are entered, left and found again as those below.
#[test]
fn segments_past_the_eighth() {
    accepts("080400 / 06", "080000 / 060400 / 900401");
    accepts("080f80 / 06", "080000 / 060f80 / 900f81");
    accepts(
        "080f81 / 0c0005 / 0c0f80 / 06",
        "080000 / 0c / 0c / 060f80 / 900f81",
    );
    accepts(
        "f00002 / 080f81 / 0c0005 / 0c0f80 / 06",
        "f00002 / 080000 / 0c / 0c / 060005 / 900f81",
    );
}

#[test]
fn the_last_handle() {
    let all_but_one = text("01 / 081000 / 020001 / 080fff");
    let last = join(&[&all_but_one, b"06\n"]);
    ends(&last, "02 / 080000 / 060fff / 901000");
    refuses_bytes(&join(&[&last, b"06\n"]), 16, 5);
    refuses_bytes(&join(&[&all_but_one, b"080002\n"]), 16, 4);
    ends(&join(&[&last, b"0c1fff\n"]), "060fff / 0c / 901000");
    refuses_bytes(&join(&[&last, b"0c2000\n"]), 13, 5);
}

/// A title is a line of 7 bytes, and so is the size line.
const SEVEN: usize = 7;

/// All slots, closed and drained, twice, so that each handle gives a drain an address; all other frames write, which gives the longest of the other lines.
fn longest(title: &str) -> (Vec<u8>, Vec<u8>) {
    let writes = LINES - 7 - usize::from(!title.is_empty());
    let script = join(&[
        &text(title),
        &text("01 / 081000"),
        &times(writes, "1000000007"),
        &text("020001 / 0f / 081000 / 05 / 0f"),
    ]);
    let addresses: String = (0..SLOTS).map(|slot| format!("{slot:04x}")).collect();
    let drain = format!("0f1000{addresses}");
    let list = join(&[
        &text(title),
        &text("010001 / 080000"),
        &times(writes, "1000000007"),
        &text(&format!("02 / {drain} / 080000 / 05 / {drain} / 901000")),
    ]);
    (script, list)
}

/// No list is longer than 11 bytes a line, 4 a handle and the size line. Two runs, two drains and a child give 4 bytes less than a write, and the two frames that close
/// a scope 8 less: with fewer of these a drain has none of 4,096 addresses. So this one is the longest.
#[test]
fn the_longest_list() {
    let bound = 11 * LINES + 4 * HANDLES + SEVEN;
    assert_eq!(bound, 55_303);
    let (script, list) = longest("");
    accepts_bytes(&script, &list);
    assert_eq!(list.len(), bound - 5 * 4 - 2 * 8);
    assert!(list.len() <= BUFFER);
    assert_eq!(translator(&script), list);
    assert_eq!(runner(&list), b"");
    let kept = model::translator_with(&script, Some(Fault::BufferKept));
    assert_eq!(kept, b"ee110000\n");
    let (titled, its_list) = longest("f00002");
    accepts_bytes(&titled, &its_list);
    assert_eq!(its_list.len(), list.len() - 11 + SEVEN);
}
