//! The tools themselves: records, shrinking, and that a planted fault is found and an honest answer isn't blamed.

use model::{Fault, Lent, Placement, FAULTS, LINES};
use oracle::agreement;
use oracle::bare::{model_rows, Call};
use oracle::comparison::Comparison;
use oracle::editions;
use oracle::every::{alphabet, needs_alphabet, samples_alphabet, wide_alphabet};
use oracle::judge::Against;
use oracle::ours::{Model, Ours};
use oracle::recorded::{self, Modelled};
use oracle::records::{self, Mark};
use oracle::rng::Rng;
use oracle::{phases, random, sessions, shrink};

const BOTH: Against = Against {
    original: true,
    model: true,
    plant: None,
};

#[test]
fn records_are_read_as_written() {
    let mut bytes = Vec::new();
    records::write(Mark::Original, b"06\n", b"060000\n900001\n", &mut bytes);
    records::write(Mark::Ours, b"", b"900000\n", &mut bytes);
    assert!(bytes.starts_with(b"o000000030000000e\n06\n060000\n900001\nm"));
    let read = records::read(&bytes).expect("records");
    assert_eq!(read[0], (b'o', &b"06\n"[..], &b"060000\n900001\n"[..]));
    assert_eq!(read[1], (b'm', &b""[..], &b"900000\n"[..]));
    assert_eq!(records::read(&bytes[..bytes.len() - 1]), None);
}

#[test]
fn a_script_is_made_small() {
    let long = b"01\n080005\n06\n020001\n06\n0c0006\n0f\n05\n";
    let dangles = |s: &[u8]| {
        let list = String::from_utf8(model::translator(s)).expect("a list");
        list.lines().any(|l| l.starts_with("0f") && l != "0f0000")
    };
    let small = shrink::shrink(long, &mut |s| dangles(s));
    assert!(dangles(&small));
    assert!(small.len() <= b"01\n06\n020001\n0f\n".len());
}

#[test]
fn the_model_has_no_difference() {
    let mut comparison = Comparison::new(Box::new(Model(None)), BOTH);
    phases::every_script(&mut comparison, &alphabet(), 3);
    phases::every_script(&mut comparison, &wide_alphabet(), 2);
    phases::every_script(&mut comparison, &needs_alphabet(), 3);
    phases::every_script(&mut comparison, &samples_alphabet(), 3);
    phases::sessions_of_needs(&mut comparison);
    phases::sessions_of_samples(&mut comparison);
    phases::sessions_of_sizes(&mut comparison);
    phases::random_scripts(&mut comparison, random::script, 300, 7);
    phases::random_scripts(&mut comparison, random::with_needs, 300, 7);
    phases::random_scripts(&mut comparison, random::with_samples, 300, 7);
    assert!(comparison.found.is_empty());
    assert!(comparison.tally.offered > 4000);
}

/// .. nor does edition 2, by the sets of slots: held to both, the original isn't asked.
#[test]
fn the_model_has_no_difference_in_edition_2() {
    let mut comparison = Comparison::new(Box::new(Model(None)), BOTH);
    phases::every_tight_script(&mut comparison, &alphabet(), 3);
    phases::every_tight_script(&mut comparison, &wide_alphabet(), 3);
    phases::every_tight_script(&mut comparison, &needs_alphabet(), 3);
    phases::sessions_of_edition_2(&mut comparison);
    phases::random_tight_scripts(&mut comparison, 600, 7);
    assert!(comparison.found.is_empty());
    let told = comparison.tally.to_string();
    assert!(comparison.tally.offered > 8000, "{told}");
    for label in ["accepted, by the model", "refused by  7, by the model"] {
        assert!(told.contains(label), "{told}");
    }
    assert!(!told.contains("original"), "{told}");
}

/// What is taken in both editions prints the same when run, and no refusal but 7 depends on the edition.
#[test]
fn both_editions_mean_the_same() {
    let (tally, differs) = editions::by_chance(&mut Model(None), 1500, 211);
    assert_eq!(differs, None);
    let sizes = &tally.sizes;
    assert!(sizes.scripts > 1000 && sizes.smaller > 50, "{tally}");
    assert!(sizes.second < sizes.first, "{tally}");
}

/// .. and where the meaning does depend on it, that is found: here the second edition forgets that a sample was written.
#[test]
fn editions_that_mean_something_else_are_found() {
    struct Apart;
    impl Ours for Apart {
        fn answer(&mut self, script: &[u8]) -> Vec<u8> {
            let fault = script.starts_with(b"f0").then_some(Fault::SampleUnwritten);
            model::translator_with(script, fault)
        }
        fn name(&self) -> String {
            "two models".into()
        }
    }
    let (_, differs) = editions::by_chance(&mut Apart, 1500, 211);
    assert!(differs.is_some());
}

/// What goes with a frame that is left out: its need, the handle of that need, and their numbers later on.
#[test]
fn a_script_with_needs_is_made_small() {
    let long = b"22\n200000\n06\n230001\n01\n200001\n230002\n1000020007\n110002\n020001\n250001\n";
    let reads = |s: &[u8]| {
        let list = String::from_utf8(model::translator(s)).expect("a list");
        list.contains("\n23") && list.contains("\n11")
    };
    let small = shrink::shrink(long, &mut |s| reads(s));
    assert_eq!(small, b"200000\n230000\n1000000000\n110000\n");
}

/// Scripts by chance reach the 64th need and go on after it.
#[test]
fn many_needs_by_chance() {
    let mut rng = Rng::new(1);
    let most = (0..300).map(|_| {
        let frames = random::with_needs(&mut rng).frames;
        model::play(Placement::ByHead, &frames, None).0.needed()
    });
    assert_eq!(most.max(), Some(model::NEEDS));
}

/// Each fault of needs is found by a script; the two of the room for needs by the model alone.
#[test]
fn faults_of_needs_are_found() {
    let of_needs = FAULTS
        .iter()
        .skip_while(|(_, f)| *f != Fault::NeedHandleFreed)
        .take_while(|(_, f)| *f != Fault::SampleUnwritten);
    for (name, fault) in of_needs {
        let original = !matches!(fault, Fault::NeedRoomFirst | Fault::FreedNeedMakesRoom);
        let against = Against {
            original,
            model: !original,
            ..BOTH
        };
        let mut comparison = Comparison::new(Box::new(Model(Some(*fault))), against);
        phases::sessions_of_needs(&mut comparison);
        assert!(!comparison.found.is_empty(), "{name}");
    }
}

/// The original knows no 15: a sample that isn't marked written is found by the model alone.
#[test]
fn a_sample_that_is_not_marked_written_is_found() {
    let against = Against {
        original: false,
        ..BOTH
    };
    let fault = Model(Some(Fault::SampleUnwritten));
    let mut comparison = Comparison::new(Box::new(fault), against);
    phases::sessions_of_samples(&mut comparison);
    let found = comparison.found.iter().map(|f| f.small.as_slice());
    let smallest = found.min_by_key(|small| small.len());
    assert_eq!(smallest, Some(&b"06\n140000\n110000\n"[..]));
}

/// Each fault of recordings is found by a case by chance, and the model without one isn't blamed.
#[test]
fn faults_of_recordings_are_found() {
    let (outcomes, found) = recorded::by_chance(&mut Modelled(None), 2000, 2);
    assert!(found.is_none());
    for number in [1, 2, 17, 20, 23, 24, 29] {
        let label = format!("refused by {number:2}");
        assert!(outcomes.to_string().contains(&label), "{outcomes}");
    }
    let of_recordings = FAULTS
        .iter()
        .skip_while(|(_, f)| *f != Fault::SampleHighLate)
        .take_while(|(_, f)| *f != Fault::TightFromHead);
    for (name, fault) in of_recordings {
        let (_, found) = recorded::by_chance(&mut Modelled(Some(*fault)), 2000, 2);
        let (case, _) = found.expect(name);
        assert!(
            case.list.len() < 60 && case.recording.len() < 60,
            "{name}: {case}"
        );
    }
}

/// The faults of titles that lists show when they are run.
const IN_LISTS: [Fault; 4] = [
    Fault::TitleLater,
    Fault::TitleAnyNumber,
    Fault::TitleUnnumbered,
    Fault::TitleUnread,
];

/// The faults of edition 2's slots that bare slots show.
const IN_SLOTS: [Fault; 4] = [
    Fault::TightFromHead,
    Fault::TightFromOne,
    Fault::TightKeepsLength,
    Fault::TightKeepsHead,
];

/// Each fault of edition 2 is found by a session, but for the head, which no script shows, and for lists that are run. That of the limit has a
/// test of its own: a long script isn't made small quickly.
#[test]
fn faults_of_edition_2_are_found() {
    let of_edition_2 = FAULTS
        .iter()
        .skip_while(|(_, f)| *f != Fault::TightFromHead)
        .take_while(|(_, f)| *f != Fault::SizeUnseen)
        .filter(|(_, f)| *f != Fault::TitleBesideLimit);
    for (name, fault) in of_edition_2 {
        let mut comparison = Comparison::new(Box::new(Model(Some(*fault))), BOTH);
        phases::sessions_of_edition_2(&mut comparison);
        let by_script = !matches!(fault, Fault::TightKeepsHead | Fault::TitleUnread);
        assert_eq!(!comparison.found.is_empty(), by_script, "{name}");
        let mut rows = |c: &[Call]| model_rows(c, Placement::Lowest, Some(*fault));
        let (_, by_bare) = phases::bare_by_model(100, 211, Placement::Lowest, &mut rows);
        assert_eq!(by_bare.is_some(), IN_SLOTS.contains(fault), "{name}");
        let (_, by_list) = recorded::by_chance(&mut Modelled(Some(*fault)), 300, 206);
        assert_eq!(by_list.is_some(), IN_LISTS.contains(fault), "{name}");
    }
}

#[test]
fn a_title_beside_the_limit_is_found() {
    let fault = Some(Fault::TitleBesideLimit);
    let [full, over, _] = sessions::long_edition_2();
    assert_eq!(
        model::translator(&full),
        model::translator_with(&full, fault)
    );
    assert_eq!(model::translator(&over), b"ee020800\n");
    let list = model::translator_with(&over, fault);
    assert!(list.starts_with(b"f00002\n"));
    let run = |plant| {
        let [cells, out, left] = &mut [[0; 4]; 3];
        model::run_recorded_with(&list, 0, &[], Lent { cells, out, left }, plant)
    };
    assert_eq!(run(fault), Ok(0));
    assert_eq!(run(None).map_err(|r| (r.number, r.line)), Err((2, LINES)));
}

/// The faults of W-206's sizes that scripts show, by the model alone: the original limits neither slots nor handles.
#[test]
fn faults_of_the_room_are_found() {
    for (fault, smallest) in [
        (Fault::SegmentShort, "080f81\n"),
        (Fault::HandleShort, "082000\n"),
    ] {
        let mut comparison = Comparison::new(Box::new(Model(Some(fault))), BOTH);
        phases::sessions_of_sizes(&mut comparison);
        let found = comparison.found.iter().map(|f| f.small.as_slice());
        let small = found.min_by_key(|small| small.len());
        assert_eq!(small, Some(smallest.as_bytes()), "{fault:?}");
    }
}

/// That of the size line shows in lists that are run and in lists from elsewhere, that of the buffer in texts and in the longest list.
#[test]
fn faults_of_lists_and_texts_are_found() {
    let fault = Some(Fault::SizeLineKept);
    let (_, found) = recorded::by_chance(&mut Modelled(fault), 300, 206);
    let (case, _) = found.expect("a list");
    assert!(case.list.starts_with(b"90"), "{case}");
    let mut checker = agreement::Modelled(fault);
    assert!(agreement::by_chance(&mut checker, 300, 206).1.is_some());
    let fault = Some(Fault::BufferKept);
    let longest = sessions::longest();
    let kept = model::translator_with(&longest, fault);
    assert_eq!(kept, b"ee110000\n");
    assert!(model::translator(&longest).starts_with(b"010001\n"));
    let mut comparison = Comparison::new(Box::new(Model(fault)), BOTH);
    phases::damaged_texts(&mut comparison, 300, 206);
    assert!(!comparison.found.is_empty());
}

/// The head of edition 2 is looked at by no insert: scripts don't show it.
#[test]
fn no_script_shows_the_head_of_edition_2() {
    let mut comparison = Comparison::new(Box::new(Model(Some(Fault::TightKeepsHead))), BOTH);
    phases::every_tight_script(&mut comparison, &wide_alphabet(), 3);
    phases::random_tight_scripts(&mut comparison, 300, 211);
    assert!(comparison.found.is_empty());
}

/// Edition 1 placed tightly is 01's first "tempting and wrong": it gives the slots of edition 2.
#[test]
fn edition_1_searched_from_slot_0_is_edition_2() {
    let mut rng = Rng::new(211);
    let mut other = 0;
    for _ in 0..400 {
        let made = random::tight(&mut rng);
        let frames = model::Frame::script(&made.frames);
        let from_zero = model::translator_with(&frames, Some(Fault::SearchFromZero));
        let tight = model::translator(&made.text());
        if !tight.starts_with(b"ee") {
            assert_eq!(tight, [b"f00002\n", &from_zero[..]].concat());
            other += usize::from(model::translator(&frames) != from_zero);
        }
    }
    assert!(other > 20, "{other}");
}

#[test]
fn a_planted_fault_is_found_by_the_original() {
    let against = Against {
        model: false,
        ..BOTH
    };
    let mut comparison = Comparison::new(Box::new(Model(Some(Fault::RunInGap))), against);
    phases::every_script(&mut comparison, &alphabet(), 4);
    let small: Vec<usize> = comparison
        .found
        .iter()
        .map(|f| model::read_script(&f.small, None).map_or(0, |s| s.frames.len()))
        .collect();
    assert!(small.contains(&4), "{small:?}");
}
