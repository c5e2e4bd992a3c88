//! Bare slots: ours by 01 and by W-202, against the original's; with the feature `linked` the proved functions too.

use model::{Fault, Placement, SEGMENTS, SLOTS};
use oracle::bare::{model_rows, Call, End, Row};
use oracle::comparison::Comparison;
use oracle::every::{alphabet, wide_alphabet};
use oracle::judge::Against;
use oracle::ours::Model;
use oracle::{phases, random};
use rune::Bare;

/// What the rules have a run of calls show; ours is the same.
fn rows(calls: &[Call]) -> Vec<Row> {
    let rows = model_rows(calls, Placement::ByHead, None);
    #[cfg(feature = "linked")]
    assert_eq!(
        oracle::linked_slots::rows(calls, model::Placement::ByHead),
        rows
    );
    rows
}

/// The last row of both sides, after so many pushes and these removals.
fn last(pushes: usize, removals: &[usize]) -> (Row, Row) {
    let mut calls = vec![Call::Push; pushes];
    calls.extend(removals.iter().map(|a| Call::Remove(*a)));
    let ours = *rows(&calls).last().expect("a call");
    let mut theirs = Bare::default();
    for _ in 0..pushes {
        theirs.push();
    }
    let existed = removals.iter().map(|a| theirs.remove(*a)).last();
    let original = Row {
        answer: existed.expect("a removal").into(),
        length: theirs.length(),
        head: theirs.head(),
    };
    (ours, original)
}

fn row(answer: usize, length: usize, head: usize) -> Row {
    Row {
        answer,
        length,
        head,
    }
}

/// W-202: "if the segment exists, `remove` sets the head to it even when the slot was already clear, and still answers no".
#[test]
fn a_clear_slot_moves_the_head() {
    assert_eq!(last(129, &[129]), (row(0, 2, 1), row(0, 2, 1)));
    assert_eq!(last(129, &[5, 255]), (row(0, 2, 1), row(0, 2, 1)));
    assert_eq!(last(300, &[299, 5, 5]), (row(0, 3, 0), row(0, 3, 0)));
}

#[test]
fn at_segment_l_or_above_nothing_changes() {
    assert_eq!(last(129, &[256]), (row(0, 2, 0), row(0, 2, 0)));
    assert_eq!(last(129, &[SLOTS - 1]), (row(0, 2, 0), row(0, 2, 0)));
    let full = row(0, SEGMENTS, 0);
    assert_eq!(last(SLOTS, &[SLOTS]), (full, full));
}

/// The next insert tells the two wordings apart: by the first one it gives slot 5.
#[test]
fn the_next_insert_shows_it() {
    let mut calls = vec![Call::Push; 129];
    calls.extend([Call::Remove(5), Call::Remove(129), Call::Insert]);
    assert_eq!(rows(&calls)[131], row(129, 2, 1));
    let first = model_rows(&calls, Placement::ByHead, Some(Fault::ClearLeavesHead));
    assert_eq!(first[131], row(5, 2, 0));
}

/// .. so the bare slots find the first wording,
#[test]
fn bare_slots_find_the_first_wording() {
    let mut first =
        |calls: &[Call]| model_rows(calls, Placement::ByHead, Some(Fault::ClearLeavesHead));
    let (_, found) = phases::bare_every(1, &mut first);
    let (calls, end) = found.expect("a difference");
    assert!(matches!(end, End::Differs(..)), "{calls:?}");
    assert!(matches!(calls.last(), Some(Call::Remove(_))), "{calls:?}");
}

/// .. and no script does: each removal that a script makes is of an occupied slot.
#[test]
fn no_script_finds_the_first_wording() {
    let against = Against {
        original: true,
        model: true,
        plant: None,
    };
    let first = Box::new(Model(Some(Fault::ClearLeavesHead)));
    let mut comparison = Comparison::new(first, against);
    phases::every_script(&mut comparison, &alphabet(), 3);
    phases::every_script(&mut comparison, &wide_alphabet(), 3);
    phases::random_scripts(&mut comparison, random::script, 300, 7);
    assert!(comparison.found.is_empty());
}

#[test]
fn the_rules_have_no_difference() {
    let mut ours = |calls: &[Call]| model_rows(calls, Placement::ByHead, None);
    let (tally, found) = phases::bare_every(2, &mut ours);
    assert_eq!(found, None);
    assert!(tally.went.clear > 100, "{tally}");
}
