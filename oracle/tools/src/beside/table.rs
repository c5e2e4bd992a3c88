//! The two lists side by side, as text.

use super::{Beside, Mark, Row};

/// Equal lines between marked ones are folded where there are more than these.
const FOLD: usize = 12;
/// Lines that stay about a marked one.
const ABOUT: usize = 3;

fn sign(mark: Mark) -> &'static str {
    match mark {
        Mark::Equal => " ",
        Mark::Outside => "~",
        Mark::Edition => "2",
        Mark::Differs => "#",
        Mark::Apart => ".",
    }
}

/// A drain may be long.
fn short(text: &str) -> String {
    match text.char_indices().nth(21) {
        Some((at, _)) => format!("{}..", &text[..at - 1]),
        None => text.into(),
    }
}

fn line(number: usize, row: &Row, wide: usize, out: &mut String) {
    let (script, old, ours) = (short(&row.script), short(&row.old), short(&row.ours));
    let sign = sign(row.mark);
    let text = format!("{number:5}  {script:<12}{old:<wide$} {sign} {ours:<wide$}");
    out.push_str(text.trim_end());
    out.push('\n');
    for note in &row.notes {
        out.push_str(&format!("{:>9}{note}\n", "^ "));
    }
}

/// Is the row of interest, or near one that is?
fn stays(rows: &[Row], at: usize) -> bool {
    let near = &rows[at.saturating_sub(ABOUT)..rows.len().min(at + ABOUT + 1)];
    let ends = at < ABOUT || at + ABOUT >= rows.len();
    let told = |r: &Row| {
        matches!(r.mark, Mark::Outside | Mark::Edition | Mark::Differs) || !r.notes.is_empty()
    };
    ends || near.iter().any(told)
}

/// With `whole` every line, otherwise long equal parts are folded.
pub fn table(beside: &Beside, whole: bool) -> String {
    let rows = &beside.rows;
    let longest = rows.iter().flat_map(|r| [&r.old, &r.ours]);
    let wide = longest.map(|t| short(t).len()).max().unwrap_or(0).max(10);
    let mut out = format!(
        "{:>5}  {:<12}{:<wide$}   {}\n",
        "line", "script", "old", "ours"
    );
    if beside.titled() {
        line(0, &Row::title(), wide, &mut out);
    }
    let mut at = 0;
    while at < rows.len() {
        let alike = |i: &usize| !stays(rows, *i) && rows[*i].mark == rows[at].mark;
        let quiet = (at..rows.len()).take_while(alike).count();
        if !whole && quiet > FOLD {
            let what = match rows[at].mark {
                Mark::Equal => "equal",
                _ => "not compared",
            };
            out.push_str(&format!("       .. {quiet} lines, {what} ..\n"));
            at += quiet;
            continue;
        }
        line(beside.line(at), &rows[at], wide, &mut out);
        at += 1;
    }
    out
}
