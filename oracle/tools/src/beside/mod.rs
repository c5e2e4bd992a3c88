//! A script through the old allocator and through ours, side by side: what the track crew did by hand.

mod axes;
mod colours;
mod draw;
mod held;
mod page;
mod rows;
mod sentence;
mod table;
// one text for the host and the tools
#[path = "../../../../host/src/words.rs"]
mod words;

pub use held::{shared, Shared};
pub use page::page;
pub use rows::{Mark, Row};
pub use sentence::{sentence, Counts};
pub use table::table;

use crate::judge::{answer, judge, Against, Answer, Outside, Verdict};
use crate::ours::Ours;
use model::{Frame, Placement, Script};
use rune::{drive, Driven, Held};

/// One of the two allocators, as far as its answers are compared.
pub struct Side {
    /// the lines of its list
    pub lines: Vec<String>,
    pub held: Vec<Held>,
    /// its answers end before this frame
    pub end: usize,
}

/// Lines are places among the frames here; as they are shown, a title counts before them.
pub struct Beside {
    pub name: String,
    /// ours follows the script's edition, the old allocator edition 1
    pub placement: Placement,
    pub frames: Vec<Frame>,
    pub rows: Vec<Row>,
    pub verdict: Verdict,
    /// where the script left the domain of 01, and how
    pub left: Option<(usize, Outside)>,
    /// where ours refused, and by which number
    pub refused: Option<(usize, u8)>,
    pub old: Side,
    pub ours: Side,
    /// slots that the old allocator gave twice
    pub shared: Vec<Shared>,
}

const BOTH: Against = Against {
    original: true,
    model: true,
    plant: None,
};

fn ask(ours: &mut dyn Ours, script: &[u8]) -> Vec<u8> {
    ours.answer(script)
}

/// The lines of the frames; the size line too, if the list has one for all of them. The title's line isn't one of them.
fn lines(list: &[u8], titles: usize, whole: bool, frames: usize) -> Vec<String> {
    let text = String::from_utf8_lossy(list);
    let most = if whole { frames + 1 } else { frames };
    let lines = text.lines().skip(titles).take(most);
    lines.map(String::from).collect()
}

fn left(driven: &Driven, end: usize) -> Option<(usize, Outside)> {
    let met = [
        driven
            .head_above_length
            .map(|at| (at, Outside::HeadAboveLength)),
        driven
            .root_freed_late
            .map(|at| (at, Outside::RootFreedLate)),
    ];
    let first = met.into_iter().flatten().min_by_key(|(at, _)| *at);
    first.filter(|(at, _)| *at < end)
}

/// The old allocator, up to the frame that ours refused or that it refused itself.
fn old_side(driven: &Driven, end: usize, whole: bool) -> Side {
    let stop = driven.stop.as_ref().map_or(end, |(line, _)| *line);
    let held = driven.held.iter().filter(|h| h.from < end).copied();
    Side {
        lines: lines(&driven.list, 0, whole, end + 1),
        held: held.collect(),
        end: end.min(stop),
    }
}

/// Ours: a refused script is asked again without the refused frame and what comes after it.
fn our_side(ours: &mut dyn Ours, script: &Script, printed: &[u8], whole: bool) -> Side {
    let (titles, frames) = (script.first_line(), script.frames.len());
    let lines = match whole {
        true => lines(printed, titles, true, frames),
        false => lines(&ask(ours, &script.text()), titles, false, frames),
    };
    Side {
        held: held::by_list(script, &lines),
        lines,
        end: frames,
    }
}

/// No script at all, or one that no program takes: there is nothing to hold side by side.
fn unread(name: &str, refused: Option<(usize, u8)>, verdict: Verdict) -> Beside {
    let none = || Side {
        lines: vec![],
        held: vec![],
        end: 0,
    };
    Beside {
        name: name.into(),
        placement: Placement::ByHead,
        frames: vec![],
        rows: vec![],
        verdict,
        left: None,
        refused,
        old: none(),
        ours: none(),
        shared: vec![],
    }
}

impl Beside {
    pub fn new(name: &str, script: &[u8], ours: &mut dyn Ours) -> Beside {
        let printed = ask(ours, script);
        let verdict = judge(script, &printed, BOTH);
        let refused = match answer(&printed) {
            Some(Answer::Refused(number, line)) => Some((line, number)),
            _ => None,
        };
        let script = match model::read_script(script, None) {
            Ok(script) if !matches!(verdict, Verdict::Text(_)) => script,
            _ => return unread(name, refused, verdict),
        };
        let first = script.first_line();
        let (frames, whole) = (script.frames.len(), refused.is_none());
        let end = refused.map_or(Some(frames), |(line, _)| line.checked_sub(first));
        let Some(end) = end.filter(|end| whole || *end < frames) else {
            return unread(name, refused, verdict);
        };
        let Script { placement, frames } = script;
        let driven = drive(&frames[..frames.len().min(end + 1)]);
        let old = old_side(&driven, end, whole);
        let taken = Script {
            placement,
            frames: frames[..end].to_vec(),
        };
        let ours = our_side(ours, &taken, &printed, whole);
        let refused = refused.map(|(_, number)| (end, number));
        let shared = shared(&old.held);
        let mut beside = Beside {
            name: name.into(),
            placement,
            rows: vec![],
            verdict,
            left: left(&driven, end),
            refused,
            old,
            ours,
            shared,
            frames,
        };
        beside.rows = rows::rows(&beside, &driven);
        beside
    }

    /// How many frames are compared.
    pub fn end(&self) -> usize {
        self.refused.map_or(self.frames.len(), |(line, _)| line)
    }

    pub fn titled(&self) -> bool {
        self.placement == Placement::Lowest
    }

    /// As the script counts its lines.
    pub fn line(&self, place: usize) -> usize {
        place + usize::from(self.titled())
    }

    /// Inside the domain of 01, or by the model: ours is wrong.
    pub fn fault(&self) -> bool {
        matches!(self.verdict, Verdict::Differs(_))
            || self.rows.iter().any(|r| r.mark == Mark::Differs)
            || !shared(&self.ours.held).is_empty()
    }

    pub fn differs(&self) -> bool {
        self.fault() || self.rows.iter().any(|r| r.mark == Mark::Outside)
    }
}
