//! What came out, in a sentence for one script and in a line for many.

use super::words::words;
use super::{Beside, Mark, Outside, Side, Verdict};
use std::fmt;

/// How a script came out, in few words.
pub fn sentence(beside: &Beside) -> String {
    let at = beside.refused.map_or(0, |(place, _)| beside.line(place));
    let differing = beside.rows.iter().filter(|r| r.mark == Mark::Outside);
    let differing = match differing.count() {
        1 => "1 line differs".into(),
        n => format!("{n} lines differ"),
    };
    if let (true, false) = (
        beside.fault(),
        matches!(beside.verdict, Verdict::Differs(_)),
    ) {
        return "DIFFERS inside 01's domain".into();
    }
    match &beside.verdict {
        Verdict::Equal => format!("equal: {} lines", beside.rows.len()),
        Verdict::BothRefuse(n) => format!("equal: both refuse line {at} ({n}: {})", words(*n)),
        Verdict::Ours(n) => format!(
            "equal up to line {at}, which only ours refuses ({n}: {}); nothing is compared after a refusal",
            words(*n)
        ),
        Verdict::Text(n) => format!("not compared: no script (line {at}, {n}: {})", words(*n)),
        Verdict::Outside(_) => match beside.left {
            Some((line, Outside::HeadAboveLength)) => format!(
                "the known fault of the old allocator at line {line} (an insert meets H > L): {differing}, outside 01's domain"
            ),
            Some((line, Outside::RootFreedLate)) => format!(
                "outside 01's domain from line {line} (a root Scope handle is freed after 05): {differing}"
            ),
            None => "outside 01's domain".into(),
        },
        Verdict::Modelled(None) => {
            format!("edition 2, as the model has it; {EDITION_1}: {}", sizes(beside))
        }
        Verdict::Modelled(Some(n)) => format!(
            "edition 2, refused at line {at} as by the model ({n}: {}); {EDITION_1}",
            words(*n)
        ),
        Verdict::Differs(why) if beside.titled() => format!("DIFFERS from edition 2: {why}"),
        Verdict::Differs(why) => format!("DIFFERS inside 01's domain: {why}"),
    }
}

const EDITION_1: &str = "the old allocator knows edition 1 only";

/// How many slots the frames take in both editions.
fn sizes(beside: &Beside) -> String {
    let size = |side: &Side| {
        let line = side.lines.get(beside.frames.len())?;
        usize::from_str_radix(line.strip_prefix("90")?, 16).ok()
    };
    match (size(&beside.old), size(&beside.ours)) {
        (Some(old), Some(ours)) if ours < old => {
            let fewer = old - ours;
            format!("{old} slots there, {ours} here, {fewer} fewer")
        }
        (Some(old), Some(ours)) => format!("{old} slots there, {ours} here"),
        _ => "it doesn't take these frames".into(),
    }
}

/// Over many scripts.
#[derive(Default)]
pub struct Counts {
    scripts: usize,
    equal: usize,
    both_refuse: usize,
    ours_alone: usize,
    unread: usize,
    known_fault: usize,
    shared: usize,
    late: usize,
    second: usize,
    pub faults: usize,
    /// scripts whose lists differ, for whatever reason
    pub differ: usize,
}

impl Counts {
    pub fn count(&mut self, beside: &Beside) {
        self.scripts += 1;
        self.differ += usize::from(beside.differs());
        if beside.fault() {
            self.faults += 1;
            return;
        }
        match beside.verdict {
            Verdict::Equal => self.equal += 1,
            Verdict::BothRefuse(_) => self.both_refuse += 1,
            Verdict::Ours(_) => self.ours_alone += 1,
            Verdict::Text(_) => self.unread += 1,
            Verdict::Outside(Outside::HeadAboveLength) => self.known_fault += 1,
            Verdict::Outside(Outside::RootFreedLate) => self.late += 1,
            Verdict::Modelled(_) => self.second += 1,
            Verdict::Differs(_) => {}
        }
        self.shared += usize::from(!beside.shared.is_empty());
    }
}

impl fmt::Display for Counts {
    fn fmt(&self, f: &mut fmt::Formatter<'_>) -> fmt::Result {
        let scripts = match self.scripts {
            1 => "1 script".into(),
            n => format!("{n} scripts"),
        };
        write!(f, "{scripts}: {} equal", self.equal)?;
        let more = [
            (self.both_refuse, "refused by both"),
            (self.ours_alone, "refused by ours alone"),
            (self.unread, "no scripts"),
            (self.known_fault, "with the known fault"),
            (self.shared, "of them with a slot given twice"),
            (self.late, "outside by a root Scope handle freed after 05"),
            (
                self.second,
                "in edition 2, which the old allocator doesn't know",
            ),
        ];
        for (n, what) in more.into_iter().filter(|(n, _)| *n > 0) {
            write!(f, ", {n} {what}")?;
        }
        write!(f, ", {} DIFFER inside 01's domain", self.faults)
    }
}
