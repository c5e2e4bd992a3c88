//! Texts about the limits of what a program reads: that they are what they are called, what the rules say of them, and that a program with the buffer
//! from before W-206 is found.

use model::{Fault, BUFFER, BUFFER_BEFORE, HANDLES, LINES};
use oracle::limits::{
    by_model, cases, first_other, lengths, long_scripts, whole, Case, Which, PROGRAMS,
};
use oracle::rng::Rng;

const SEED: u64 = 206;

fn said(which: Which) -> Vec<(Case, Vec<u8>)> {
    let cases = cases(which, &mut Rng::new(SEED));
    let printed = |case: Case| {
        let printed = by_model(which, &case, None);
        (case, printed)
    };
    cases.into_iter().map(printed).collect()
}

/// A list is as long as it is asked to be, and prints what it stores first, up to the limit.
#[test]
fn whole_lists() {
    let mut rng = Rng::new(SEED);
    for bytes in lengths() {
        let list = whole(&mut rng, bytes);
        assert_eq!(list.len(), bytes);
        let expected = match bytes <= BUFFER {
            true => [b"a0", &list[6..11]].concat(),
            false => b"ee110000\n".to_vec(),
        };
        assert_eq!(model::runner(&list), expected, "{bytes}");
    }
}

/// "Every list that we write gets a yes": at each length about the limit from before, all slots drained twice, and the longest of either edition.
#[test]
fn lists_that_agree() {
    let mut found = Vec::new();
    for script in long_scripts() {
        let list = model::translator(&script);
        assert_eq!(model::checker(&script, &list), b"yes\n", "{}", list.len());
        found.push(list.len());
    }
    // the lines of drained_twice have 48 bytes without addresses; `the_longest_list` in the model's tests has the other sum, and a title is 4 shorter than a write
    let (twice, longest) = (48 + 4 * HANDLES, 11 * LINES + 4 * HANDLES + 7 - 36);
    let about = lengths().take_while(|bytes| *bytes < twice);
    let expected: Vec<usize> = about.chain([twice, longest, longest - 4]).collect();
    assert_eq!(found, expected);
}

/// "a program refuses longer input by 17, whatever it holds", and nothing else here is refused by 17.
#[test]
fn longer_input_gets_17() {
    for which in PROGRAMS {
        for (case, printed) in said(which) {
            let second = match which {
                Which::Checker => case.second.len(),
                _ => 0,
            };
            let longer = case.first.len().max(second) > BUFFER;
            assert_eq!(printed == b"ee110000\n", longer, "{which:?}, {}", case.what);
        }
    }
}

/// What goes on behind a list is refused by 1 at its size line, up to the limit.
#[test]
fn lists_that_go_on() {
    let mut seen = 0;
    for (case, printed) in said(Which::Runner) {
        if case.first.len() <= BUFFER && case.what.starts_with("a list and") {
            let before = case.first.split(|b| *b == b'\n');
            let size_line = before.take_while(|line| !line.starts_with(b"90")).count();
            let expected = format!("ee01{size_line:04x}\n");
            assert_eq!(printed, expected.as_bytes(), "{}", case.what);
            seen += 1;
        }
    }
    assert!(seen > 20, "{seen}");
}

/// Each answer that a text about a limit can get, there is one that gets it.
#[test]
fn answers_of_all_kinds() {
    for (which, answers) in [
        (Which::Translator, &["ee01", "ee020800", "ee110000"][..]),
        (Which::Runner, &["a0", "ee01", "ee110000", "ee17"]),
        (Which::Beside, &["a0", "ee01", "ee110000", "ee17", "ee18"]),
        (
            Which::Checker,
            &["yes", "no", "ee01", "ee020800", "ee110000"],
        ),
    ] {
        let printed: Vec<Vec<u8>> = said(which).into_iter().map(|(_, p)| p).collect();
        for answer in answers {
            let some = printed.iter().any(|p| p.starts_with(answer.as_bytes()));
            assert!(some, "{which:?}: {answer}");
        }
    }
}

/// Each program that cuts its text, or has the old buffer, is found; one that does neither isn't blamed.
#[test]
fn buffers_from_before_are_found() {
    for which in PROGRAMS {
        let found = |plant| {
            let mut ask = |case: &Case| by_model(which, case, plant);
            first_other(which, 1, SEED, &mut ask).1
        };
        assert!(found(None).is_none(), "{which:?}");
        for fault in [Fault::TextCut, Fault::BufferKept] {
            let (case, _) = found(Some(fault)).expect("a difference");
            let longest = case.first.len().max(case.second.len());
            assert!(longest > BUFFER_BEFORE, "{which:?}, {}", case.what);
        }
    }
}
