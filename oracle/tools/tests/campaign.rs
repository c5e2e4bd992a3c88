//! The table of docs/DIFFERENCES.md: how rows count and how they are shown, and that what a verdict is counted as adds up.

use oracle::campaign::{called, grouped, Counts, Row, HEAD};
use oracle::comparison::Comparison;
use oracle::every::alphabet;
use oracle::judge::Against;
use oracle::ours::Model;
use oracle::phases;

const BOTH: Against = Against {
    original: true,
    model: true,
    plant: None,
};

#[test]
fn numbers_are_grouped() {
    let shown = [0, 7, 999, 1000, 57344, 1234567].map(grouped);
    assert_eq!(shown, ["0", "7", "999", "1,000", "57,344", "1,234,567"]);
}

#[test]
fn who_is_asked() {
    assert_eq!(called("translate, linked"), "`translate`");
    assert_eq!(called("/somewhere/else/runner"), "`runner`");
    assert_eq!(called("the model"), "the model");
    let both = called("read_recording and run_recorded, linked");
    assert_eq!(both, "`read_recording`, `run_recorded`");
}

fn row(equal: u64, refused: u64) -> Row {
    let counts = Counts {
        equal,
        refused,
        ..Counts::default()
    };
    Row {
        what: "some".into(),
        all: (3 * equal, "lines"),
        counts,
    }
}

#[test]
fn rows() {
    let shown = row(1200, 34).to_string();
    assert_eq!(
        shown,
        "| some | 1,234 | 3,600 lines | 1,200 | – | – | – | – | 34 | 0 |"
    );
    let columns = |line: &str| line.matches('|').count();
    assert!(HEAD.lines().all(|line| columns(line) == columns(&shown)));
    let sum = Row::sum("both", &[row(1200, 34), row(5, 6)]);
    assert_eq!((sum.counts.equal, sum.counts.refused), (1205, 40));
    assert_eq!(sum.all, (3615, "lines"));
    assert!(sum
        .to_string()
        .starts_with("| both | 1,245 | 3,615 lines |"));
}

/// What is held against the model alone: taken, refused, a no, or something else.
#[test]
fn answers_are_held() {
    let mut counts = Counts::default();
    assert!(counts.held(b"900000\n", b"900000\n"));
    assert!(counts.held(b"ee010000\n", b"ee010000\n"));
    assert!(counts.held(b"no\n", b"no\n"));
    assert!(!counts.held(b"yes\n", b"no\n"));
    let expected = Counts {
        taken: 1,
        refused: 2,
        different: 1,
        ..Counts::default()
    };
    assert_eq!(counts, expected);
}

/// Each script is counted in one column: those of the original, or those of the model.
#[test]
fn every_script_is_counted_once() {
    let mut comparison = Comparison::new(Box::new(Model(None)), BOTH);
    phases::every_script(&mut comparison, &alphabet(), 2);
    let first = std::mem::take(&mut comparison.tally);
    assert_eq!(first.counts.asked(), first.offered);
    assert_eq!((first.counts.taken, first.counts.refused), (0, 0));
    phases::every_tight_script(&mut comparison, &alphabet(), 2);
    phases::every_text(&mut comparison, 2);
    let second = comparison.tally.counts;
    assert_eq!(second.asked(), comparison.tally.offered);
    assert_eq!(second.asked(), second.taken + second.refused);
    assert!(second.taken > 0 && second.refused > 0);
}

#[test]
fn the_stored_scripts() {
    let mut comparison = Comparison::new(Box::new(Model(None)), BOTH);
    phases::stored_scripts(&mut comparison);
    let counts = comparison.tally.counts;
    assert!(counts.equal > 300 && counts.both_refuse > 20 && counts.taken > 20);
    assert_eq!(counts.different, 0);
}
