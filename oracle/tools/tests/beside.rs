//! Side by side: what is marked and what isn't, who shares a slot, and that a page can be drawn of any script.

use model::{Fault, LINES, SLOTS};
use oracle::beside::{page, sentence, shared, table, Beside, Counts, Mark};
use oracle::ours::{Model, Ours};
use oracle::random;
use oracle::rng::Rng;

fn text(script: &str) -> Vec<u8> {
    (script.replace(" / ", "\n") + "\n").into_bytes()
}

fn beside(script: &str) -> Beside {
    Beside::new("a script", &text(script), &mut Model(None))
}

fn marks(beside: &Beside) -> Vec<Mark> {
    beside.rows.iter().map(|r| r.mark).collect()
}

#[test]
fn the_whole_session_is_equal() {
    let sample = include_bytes!("../../../samples/whole-session.script");
    let beside = Beside::new("whole-session", sample, &mut Model(None));
    assert_eq!(beside.rows.len(), 12);
    assert!(!beside.differs() && beside.shared.is_empty());
    assert_eq!(sentence(&beside), "equal: 12 lines");
    assert_eq!(beside.old.held, beside.ours.held);
    let until: Vec<_> = beside.ours.held.iter().map(|h| h.until).collect();
    assert_eq!(until, [Some(7), Some(7), Some(6), Some(10)]);
}

/// 23 gives a slot; 25 ends it where the need's scope is the top, and else the pop of that scope.
#[test]
fn a_needs_slot_is_held_from_23_until_25_or_the_pop() {
    let needs =
        beside("01 / 200000 / 200001 / 230000 / 230001 / 230000 / 250000 / 250001 / 020001 / 05");
    assert!(!needs.differs());
    assert_eq!(needs.old.held, needs.ours.held);
    let held = needs.ours.held.iter();
    let spans: Vec<_> = held.map(|h| (h.slot, h.from, h.until)).collect();
    assert_eq!(spans, [(0, 3, Some(9)), (1, 4, Some(7))]);
    let drawn = page(&[needs], &Counts::default());
    assert!(drawn.contains("handle 0, slot 0, lines 3\u{2013}8"));
    assert!(drawn.contains("handle 1, slot 1, lines 4\u{2013}6"));
}

#[test]
fn the_late_need_is_equal() {
    let sample = include_bytes!("../../../samples/late-need.script");
    let beside = Beside::new("late-need", sample, &mut Model(None));
    assert!(sentence(&beside).starts_with("equal: "));
    assert_eq!(beside.old.held, beside.ours.held);
}

/// A sample is a write: the old allocator is told of it and shows the same address.
#[test]
fn samples_are_shown() {
    let sampled = beside("06 / 06 / 140001 / 110001 / 140000");
    assert_eq!(sentence(&sampled), "equal: 6 lines");
    let row = &sampled.rows[2];
    assert_eq!(
        (&row.script[..], &row.old[..], &row.ours[..]),
        ("140001", "140001", "140001")
    );
    let refused = beside("06 / 0c0000 / 140000");
    assert_eq!(refused.rows[2].ours, "refused 14");
    assert!(!refused.differs());
}

/// D1 with its follow-up run.
#[test]
fn the_known_fault_is_named() {
    let sample = include_bytes!("../../../samples/shared-slot.script");
    let beside = Beside::new("shared-slot", sample, &mut Model(None));
    assert!(beside.differs() && !beside.fault());
    assert_eq!(beside.rows[4].mark, Mark::Outside);
    assert!(beside.rows[4].notes[0].starts_with("the known fault: this insert meets H > L"));
    let twice = "slot 256 given twice: handle 259 (line 4) and handle 387 (line 5) both hold it";
    assert_eq!(beside.rows[5].notes, [twice]);
    let [one] = &beside.shared[..] else {
        panic!("{:?}", beside.shared);
    };
    assert_eq!(
        (one.slot, one.older.handle, one.newer.handle),
        (256, 259, 387)
    );
    assert!(shared(&beside.ours.held).is_empty());
    assert!(table(&beside, false).contains("060100     ~ 060080"));
}

#[test]
fn after_a_refusal_nothing_is_compared() {
    // ours alone: no slot; then what the old allocator would go on with
    let alone = beside("081000 / 06 / 0f");
    assert!(!alone.differs());
    assert_eq!(marks(&alone), [Mark::Equal, Mark::Apart, Mark::Apart]);
    assert_eq!(alone.rows[1].ours, "refused 7");
    // both
    let both = beside("06 / 0a0007 / 0f");
    assert_eq!(marks(&both), [Mark::Equal, Mark::Equal, Mark::Apart]);
    assert!(sentence(&both).starts_with("equal: both refuse line 1 (10: name missing)"));
    // the old one, outside the domain
    let late = beside("070000 / 05 / 0c0000 / 0f");
    let expected = [
        Mark::Equal,
        Mark::Equal,
        Mark::Outside,
        Mark::Apart,
        Mark::Apart,
    ];
    assert_eq!(marks(&late), expected);
    assert!(!late.fault());
}

/// Ours in edition 2 beside the old allocator's edition 1: no difference, but for how many slots each takes.
#[test]
fn edition_2_is_shown_beside_edition_1() {
    let sample = include_bytes!("../../../samples/tight-frame.script");
    let beside = Beside::new("tight-frame", sample, &mut Model(None));
    assert!(beside.titled() && !beside.differs());
    let said = "edition 2, as the model has it; the old allocator knows edition 1 only: 897 slots there, 385 here, 512 fewer";
    assert_eq!(sentence(&beside), said);
    let marked = marks(&beside);
    assert!(marked.contains(&Mark::Edition) && marked.contains(&Mark::Equal));
    let shown = table(&beside, true);
    assert_eq!(shown.lines().count(), 2 + beside.rows.len());
    assert!(
        shown.contains("    0  f00002                 . f00002\n"),
        "{shown}"
    );
    assert!(
        shown.contains("    4  06          060100     2 060000\n"),
        "{shown}"
    );
    let mut counts = Counts::default();
    counts.count(&beside);
    assert_eq!((counts.faults, counts.differ), (0, 0));
    let told = counts.to_string();
    assert!(
        told.contains("1 in edition 2, which the old allocator doesn't know"),
        "{told}"
    );
    let drawn = page(&[beside], &counts);
    assert!(drawn.contains("ours, edition 2") && drawn.contains("<tr class='edition'>"));
    // line 4 gave handle 384 its slot
    assert!(drawn.contains("handle 384, slot 0, lines 4\u{2013}"));
}

/// The old allocator goes on where ours refuses, or has no more slots than ours has; lines count the title.
#[test]
fn edition_2_refused() {
    let full = beside("f00002 / 081000 / 0c0005 / 0c0800 / 06 / 06 / 06 / 0f");
    assert!(!full.differs());
    let said = "edition 2, refused at line 6 as by the model (7: no slot); the old allocator knows edition 1 only";
    assert_eq!(sentence(&full), said);
    assert_eq!(full.rows[5].ours, "refused 7");
    let there = beside("f00002 / 081000 / 0c0005 / 0c0800 / 06 / 06");
    let said = format!(": {} slots there, {SLOTS} here, 1 fewer", SLOTS + 1);
    assert!(sentence(&there).ends_with(&said));
    let late = beside("f00002 / 070000 / 05 / 0c0000");
    assert!(sentence(&late).ends_with("knows edition 1 only: it doesn't take these frames"));
    assert!(!late.differs());
}

/// A slot that isn't the lowest one: wrong, whatever the old allocator does.
#[test]
fn a_fault_in_edition_2_is_marked() {
    let mut wrong = Model(Some(Fault::TightFromHead));
    let script = text("f00002 / 080081 / 0c0005 / 0c0080 / 06");
    let beside = Beside::new("wrong", &script, &mut wrong);
    assert!(beside.fault());
    assert!(sentence(&beside).starts_with("DIFFERS from edition 2: line 4"));
}

#[test]
fn a_damaged_text_is_not_compared() {
    let torn = Beside::new("torn", b"06\n06", &mut Model(None));
    assert!(torn.rows.is_empty() && !torn.differs());
    assert!(sentence(&torn).starts_with("not compared: no script (line 1, 1: "));
}

/// A run in a gap: wrong, and inside the domain.
#[test]
fn a_fault_of_ours_is_marked() {
    let mut wrong = Model(Some(Fault::RunInGap));
    let script = text("06 / 06 / 06 / 0c0000 / 080002");
    let beside = Beside::new("wrong", &script, &mut wrong);
    assert!(beside.fault());
    assert_eq!(beside.rows[4].mark, Mark::Differs);
    let mut counts = Counts::default();
    counts.count(&beside);
    assert_eq!((counts.faults, counts.differ), (1, 1));
    assert!(sentence(&beside).starts_with("DIFFERS inside 01's domain"));
}

#[test]
fn a_long_equal_part_is_folded() {
    let long = Beside::new("long", &b"0f\n".repeat(LINES), &mut Model(None));
    // the size line is one more; three stay at either end, and a head stands above
    let folded = format!(".. {} lines, equal ..", LINES + 1 - 6);
    assert!(table(&long, false).contains(&folded));
    assert_eq!(table(&long, true).lines().count(), LINES + 2);
}

#[test]
fn every_script_can_be_drawn() {
    let mut ours = Model(None);
    let mut rng = Rng::new(5);
    let mut all: Vec<Beside> = [
        "05",
        "0f",
        "081000",
        "080000",
        "01 / 080101 / 020001 / 080002 / 06 / 0c0103",
        "22 / 230000",
        "200000 / 230000 / 05 / 250000",
        "01 / 080101 / 020001 / 080002 / 200000 / 230000 / 250000",
        "f00002",
        "f00002 / 081000 / 0c0005 / 0c0800 / 06 / 06",
        "f00002 / 081001",
    ]
    .into_iter()
    .map(beside)
    .collect();
    all.push(Beside::new("empty", b"", &mut ours));
    all.push(Beside::new(
        "longest",
        &b"06\n0c0000\n".repeat(LINES / 2),
        &mut ours,
    ));
    for n in 0..80 {
        let script = match n % 4 {
            0 => random::tight(&mut rng).text(),
            _ => random::any(&mut rng).text(),
        };
        let made = Beside::new(&n.to_string(), &script, &mut ours as &mut dyn Ours);
        assert!(!made.fault(), "{}", sentence(&made));
        all.push(made);
    }
    let page = page(&all, &Counts::default());
    assert!(!page.contains("NaN") && !page.contains("inf'") && !page.contains("='-"));
}
