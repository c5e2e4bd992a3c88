//! One row a frame, then the size: what both answered, and whether that may differ.

use super::words::words;
use super::{Beside, Outside, Verdict};
use model::{Frame, Script};
use rune::{Driven, Stop};

/// A line may give many slots again: so many are named.
const NAMED: usize = 6;

#[derive(Clone, Copy, Debug, PartialEq, Eq)]
pub enum Mark {
    Equal,
    /// they differ, after the script left the domain of 01
    Outside,
    /// they differ because ours is of edition 2
    Edition,
    /// they differ where 01 says that they don't
    Differs,
    /// not compared
    Apart,
}

pub struct Row {
    pub script: String,
    pub old: String,
    pub ours: String,
    pub mark: Mark,
    pub notes: Vec<String>,
}

impl Row {
    /// The title's, which the old allocator isn't told of.
    pub fn title() -> Row {
        let title = shown(&Script::tight(&[]).text());
        Row {
            script: title.clone(),
            old: String::new(),
            ours: title,
            mark: Mark::Apart,
            notes: vec![],
        }
    }
}

fn shown(line: &[u8]) -> String {
    String::from_utf8_lossy(line).trim_end().into()
}

fn text(frame: &Frame) -> String {
    let mut bytes = Vec::new();
    frame.write(&mut bytes);
    shown(&bytes)
}

pub(super) fn rows(beside: &Beside, driven: &Driven) -> Vec<Row> {
    let mut rows: Vec<Row> = (0..beside.frames.len())
        .map(|line| Row {
            script: text(&beside.frames[line]),
            old: told(&beside.old.lines, line),
            ours: told(&beside.ours.lines, line),
            mark: Mark::Apart,
            notes: notes(beside, driven, line),
        })
        .collect();
    let size = rows.len();
    if beside.refused.is_none() {
        rows.push(Row {
            script: "(size)".into(),
            old: told(&beside.old.lines, size),
            ours: told(&beside.ours.lines, size),
            mark: Mark::Apart,
            notes: vec![],
        });
    }
    refusals(beside, driven, &mut rows);
    for (line, row) in rows.iter_mut().enumerate() {
        row.mark = mark(beside, driven, line, row);
    }
    rows
}

fn told(lines: &[String], line: usize) -> String {
    lines.get(line).cloned().unwrap_or_default()
}

/// A refusal stands in the column of who refused.
fn refusals(beside: &Beside, driven: &Driven, rows: &mut [Row]) {
    if let Some((line, _)) = driven.stop {
        rows[line].old = "refused".into();
    }
    if let Some((line, number)) = beside.refused {
        rows[line].ours = format!("refused {number}");
    }
}

fn mark(beside: &Beside, driven: &Driven, line: usize, row: &Row) -> Mark {
    let stop = driven.stop.as_ref().map(|(line, _)| *line);
    let refused = beside.refused.map(|(line, _)| line);
    let over = |at: Option<usize>| at.is_some_and(|at| at < line);
    if over(stop) || over(refused) {
        return Mark::Apart;
    }
    let outside = beside.left.is_some_and(|(at, _)| at <= line);
    if refused == Some(line) {
        return match beside.verdict {
            Verdict::BothRefuse(_) => Mark::Equal,
            Verdict::Differs(_) => Mark::Differs,
            _ => Mark::Apart,
        };
    }
    match (row.old == row.ours, outside) {
        (true, _) => Mark::Equal,
        _ if beside.titled() => Mark::Edition,
        (false, true) => Mark::Outside,
        (false, false) => Mark::Differs,
    }
}

fn notes(beside: &Beside, driven: &Driven, line: usize) -> Vec<String> {
    let mut notes = Vec::new();
    match beside.left {
        Some((at, Outside::HeadAboveLength)) if at == line => notes.push(
            "the known fault: this insert meets H > L; the old allocator answers slot 128\u{b7}H and marks 128\u{b7}L".into(),
        ),
        Some((at, Outside::RootFreedLate)) if at == line => {
            notes.push("outside 01's domain: a root Scope handle is freed after 05".into());
        }
        _ => {}
    }
    let given_again = || beside.shared.iter().filter(|s| s.newer.from == line);
    for s in given_again().take(NAMED) {
        let (older, newer) = (s.older.handle, s.newer.handle);
        let (first, again) = (beside.line(s.older.from), beside.line(line));
        let slot = s.slot;
        notes.push(format!(
            "slot {slot} given twice: handle {older} (line {first}) and handle {newer} (line {again}) both hold it"
        ));
    }
    if let more @ 1.. = given_again().skip(NAMED).count() {
        notes.push(format!("and {more} more slots given twice here"));
    }
    match &driven.stop {
        Some((at, Stop::Refused(said))) if *at == line => {
            notes.push(format!("the old allocator refuses: {said}"));
        }
        Some((at, Stop::Untold(why))) if *at == line => {
            notes.push(format!("can't be said to the old allocator: {why}"));
        }
        _ => {}
    }
    if let Some((_, number)) = beside.refused.filter(|(at, _)| *at == line) {
        notes.push(format!("ours refuses by {number}: {}", words(number)));
    }
    notes
}
