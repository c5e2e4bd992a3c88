//! Each entry of docs/DIFFERENCES.md: its smallest script, what 01 says, what the original does; and, with the feature `linked`,
//! what the proved functions do.

use model::{Frame, Refusal};
use rune::{drive, Driven, Stop};

fn frames(script: &str) -> Vec<Frame> {
    let text = script.replace(" / ", "\n") + "\n";
    let script = model::read_script(text.as_bytes(), None);
    script.expect("a script").frames
}

fn list(lines: &str) -> Vec<u8> {
    (lines.replace(" / ", "\n") + "\n").into_bytes()
}

/// What 01 has printed for the script; ours is the same.
#[track_caller]
fn printed(frames: &[Frame]) -> Vec<u8> {
    let script = Frame::script(frames);
    let printed = model::translator(&script);
    #[cfg(feature = "linked")]
    {
        use oracle::{linked::Translate, ours::Ours};
        assert_eq!(Translate::default().answer(&script), printed);
    }
    printed
}

/// 01's list of the script.
#[track_caller]
fn ours(script: &str, lines: &str) {
    assert_eq!(printed(&frames(script)), list(lines));
}

/// 01 refuses the last frame.
#[track_caller]
fn refused(script: &str, number: u8) -> Driven {
    let frames = frames(script);
    let line = frames.len() - 1;
    let refusal = model::print_refusal(Refusal { number, line });
    assert_eq!(printed(&frames), refusal);
    drive(&frames)
}

/// .. and the original takes it, with this line.
#[track_caller]
fn taken(script: &str, number: u8, last: &str) {
    let driven = refused(script, number);
    assert_eq!(driven.stop, None);
    let text = String::from_utf8(driven.list).expect("a list");
    let lines: Vec<&str> = text.lines().collect();
    assert_eq!(lines[lines.len() - 2], last);
}

/// .. and the original refuses it too, in these words.
#[track_caller]
fn refused_in_words(script: &str, number: u8, words: &str) {
    let stop = refused(script, number).stop.expect("a refusal");
    assert_eq!(stop.1, Stop::Refused(words.into()));
}

#[test]
fn d1_insert_with_the_head_above_the_length() {
    let script = "01 / 080101 / 020001 / 080002 / 06";
    ours(script, "010001 / 080000 / 02 / 080000 / 060080 / 900101");
    let driven = drive(&frames(script));
    assert_eq!(
        driven.list,
        list("010001 / 080000 / 02 / 080000 / 060100 / 900101")
    );
    assert_eq!(driven.head_above_length, Some(4));
}

/// The slot that it answered isn't marked: a run takes it again, and it can't be given back.
#[test]
fn d1_two_allocations_share_a_slot() {
    let driven = drive(&frames("01 / 080101 / 020001 / 080002 / 06 / 080080"));
    let shared = driven.shared.expect("two handles on one slot");
    assert_eq!((shared.line, shared.address), (5, 256));
    assert_eq!((shared.older, shared.newer), (259, 387));
    let freed = drive(&frames("01 / 080101 / 020001 / 080002 / 06 / 0c0103"));
    let words = "Freed adddress 256 does not have a global slot in scope 0:0";
    assert_eq!(freed.stop, Some((5, Stop::Refused(words.into()))));
}

/// A deferred need inserts as alloc in does.
#[test]
fn d1_by_a_need() {
    let script = "01 / 080101 / 020001 / 080002 / 200000 / 230000";
    ours(
        script,
        "010001 / 080000 / 02 / 080000 / 200000 / 230080 / 900101",
    );
    let driven = drive(&frames(script));
    assert_eq!(
        driven.list,
        list("010001 / 080000 / 02 / 080000 / 200000 / 230100 / 900101")
    );
    assert_eq!(driven.head_above_length, Some(5));
}

/// 01 takes the script, with this list; the original refuses its last frame: it looks for root.
#[track_caller]
fn freed_late(script: &str, lines: &str) {
    ours(script, lines);
    let frames = frames(script);
    let last = frames.len() - 1;
    let driven = drive(&frames);
    let words = "Freed address 0 does not have an implicit scope";
    assert_eq!(driven.stop, Some((last, Stop::Refused(words.into()))));
    assert_eq!(driven.root_freed_late, Some(last));
}

#[test]
fn d2_a_root_scope_handle_freed_after_pop_last() {
    freed_late("070000 / 05 / 0c0000", "070000 / 05 / 0c / 900001");
}

#[test]
fn d3_child_after_pop_last() {
    taken("05 / 01", 3, "010001");
}

#[test]
fn d4_restore_of_a_closed_scope() {
    taken("01 / 020001 / 040001", 4, "04");
}

#[test]
fn d5_root_and_dangled_marks() {
    taken("020000", 5, "02");
    taken("030000", 5, "03");
    taken("040000", 5, "04");
    taken("01 / 030001 / 020001", 5, "02");
    taken("01 / 030001 / 030001", 5, "03");
    taken("01 / 040001", 5, "04");
}

#[test]
fn d6_live_children() {
    taken("01 / 01 / 020001", 6, "02");
    taken("01 / 05", 6, "05");
}

#[test]
fn d7_slots_that_are_not_held() {
    refused("06 / 05 / 10000000ff", 14);
    refused("06 / 110000", 15);
    taken("01 / 06 / 020001 / 06 / 0c0000", 14, "0c");
    refused_in_words(
        "01 / 06 / 020001 / 0c0000",
        14,
        "Freed address 0 is not defined in scope 0:0",
    );
    refused_in_words(
        "06 / 05 / 0c0000",
        14,
        "Freed address 0 does not have an implicit scope",
    );
}

#[test]
fn d8_room() {
    taken("081001", 7, "080000");
    taken("082000", 7, "080000");
    taken("081000 / 06", 7, "061000");
    taken("081000 / 0c0000 / 0c0fff / 06 / 06", 7, "061000");
    taken("082001", 16, "080000");
    taken("01 / 081000 / 020001 / 081000 / 06", 16, "061000");
    let children = vec!["01"; 64].join(" / ");
    taken(&children, 8, "010040");
    let names: Vec<String> = (0..257).map(|n| format!("09{n:04x}0000")).collect();
    taken(&format!("06 / {}", names.join(" / ")), 9, "09");
}

#[test]
fn d10_a_refused_pop_drops_the_scope_at_that_index() {
    let words = "Scope id mismatch, 1:2 (actual) != 1:1 (expected)";
    refused_in_words("01 / 020001 / 01 / 020001", 4, words);
    assert_eq!(rune::probe::pop_refused(), (words.into(), false));
}

#[test]
fn d11_a_run_refused_midway() {
    let (words, dangling) = rune::probe::run_refused_midway();
    assert_eq!(words, "Freed address 9 is not defined in scope 0:0");
    assert_eq!(dangling, [0]);
}

#[test]
fn d14_a_need_of_root_freed_after_pop_last() {
    freed_late(
        "200000 / 230000 / 05 / 250000",
        "200000 / 230000 / 05 / 25 / 900001",
    );
}

/// .. and where the need has no address of its own there is nothing to look for.
#[test]
fn d14_other_needs_after_pop_last() {
    for (script, lines) in [
        ("200000 / 05 / 250000", "200000 / 05 / 25 / 900000"),
        (
            "06 / 210000 / 05 / 250000",
            "060000 / 210000 / 05 / 25 / 900001",
        ),
    ] {
        ours(script, lines);
        assert_eq!(drive(&frames(script)).list, list(lines));
    }
}

#[test]
fn d15_a_need_deferred_to_a_closed_scope() {
    taken("05 / 200000", 4, "200000");
    taken("01 / 020001 / 200001", 4, "200000");
    refused_in_words(
        "200000 / 05 / 230000",
        4,
        "Missing scope 0:0 to allocate in",
    );
    refused_in_words(
        "01 / 200001 / 020001 / 01 / 230000",
        4,
        "Scope id mismatch, 1:2 (actual) != 1:1 (expected)",
    );
}

#[test]
fn d16_room_for_needs() {
    taken(&vec!["22"; 65].join(" / "), 22, "220040");
    taken("081000 / 200000 / 230000", 7, "231000");
    let handles = "01 / 081000 / 020001 / 081000 / 200000 / 230000";
    taken(handles, 16, "231000");
}

/// No difference: a deferred need has no output on either side.
#[test]
fn a_deferred_need_has_no_output() {
    let words = "Needs defer(0:0) has not been allocated for output";
    refused_in_words("200000 / 240000", 18, words);
}

/// The original can't be told: it takes an address and a need by value, and a need keeps its address inside.
#[test]
fn what_can_not_be_said() {
    for (script, number) in [
        ("200000 / 230000 / 0c0000", 13),
        ("200000 / 230000 / 0d0000", 13),
        ("200000 / 230000 / 0e0000", 13),
        ("200000 / 230000 / 250000 / 0900070000", 13),
        ("210000", 13),
        ("230000", 21),
        ("22 / 250000 / 250000", 21),
    ] {
        let stop = refused(script, number).stop.expect("it goes no further");
        assert!(matches!(stop.1, Stop::Untold(_)), "{script}: {stop:?}");
    }
}
