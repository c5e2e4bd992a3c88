//! W-203 of document 02, "Lists from the rig supplier": "Their translator places otherwise. We want a tool that takes a script and such a list and
//! says yes or no." The steps are the session's, with each allocation put where the list shows it; here are the request's conditions, one by one.

use crate::edition::is_titled;
use crate::fault::{Fault, Plant};
use crate::machine::read_list_with;
use crate::{play_script, read_script, Frame, Line, Placement, Refusal, Script, Session, SLOTS};

/// Why a no is a no: the first of the request's conditions that fails, in the order in which they are looked at.
#[derive(Clone, Copy, Debug, PartialEq, Eq)]
pub enum Why {
    /// the script isn't "accepted by our rules"
    Refused(Refusal),
    /// the first line of the list that can't stand; where it has too few, the one that is missing
    Line(usize, Flaw),
    /// not "every address is below the size": they need this one
    Size(usize),
}

/// What is wrong with a line.
#[derive(Clone, Copy, Debug, PartialEq, Eq)]
pub enum Flaw {
    /// not "the same lines": one text has a title
    Title,
    TooFew,
    TooMany,
    Opcode,
    /// not "the same .. operands": the number of a scope or of a need, or a value
    Operand,
    /// not "no slot is given while another allocation holds it"
    Held {
        slot: usize,
        handle: usize,
    },
    /// there is no such slot, or the run passes the last one
    Beyond,
    /// not "each later line shows its allocation's own address"
    Address,
    /// not "an empty run, or a need with none, shows `ffff`"
    NotNone,
    /// not "01's list rules over the list's own addresses": how many dangle
    Count,
    /// .. which of them, or in which order
    Drained,
    /// nothing but a missing slot stops a script that our rules accept: only a planted fault shows this
    Stopped(u8),
}

#[derive(Clone, Copy, Debug, PartialEq, Eq)]
pub enum Verdict {
    Yes,
    No(Why),
}

/// What is held against what: the script's frames against the lines behind the titles.
struct Pair<'a> {
    script: &'a Script,
    /// the lines of our own list, behind its title
    ours: Vec<Line>,
    lines: &'a [Line],
    plant: Plant,
}

/// "the script is accepted by our rules": our lines, behind a title
fn accepted(script: &Script, plant: Plant) -> Result<Vec<Line>, Why> {
    let (_, played) = play_script(script, plant);
    match played {
        Ok(mut lines) => {
            lines.drain(..usize::from(is_titled(&lines)));
            Ok(lines)
        }
        Err(_) if plant == Some(Fault::RefusedPasses) => Ok(vec![]),
        Err(refusal) => Err(Why::Refused(refusal)),
    }
}

/// "the list has the same lines": both have the title, or none has it
fn behind_titles<'a>(script: &Script, lines: &'a [Line], plant: Plant) -> Result<&'a [Line], Why> {
    let titled = is_titled(lines);
    match titled == script.is_titled() || plant == Some(Fault::TitleOnOne) {
        true => Ok(&lines[usize::from(titled)..]),
        false => Err(Why::Line(0, Flaw::Title)),
    }
}

/// How many slots a frame takes where it allocates.
fn slots_of(frame: Frame) -> usize {
    match frame {
        Frame::Linear(n) => n.into(),
        _ => 1,
    }
}

/// Which of the slots from the first on can't be given.
fn no_room(session: &Session, frame: Frame, first: usize) -> Flaw {
    let past = first + slots_of(frame);
    let held = (first..past).find_map(|slot| session.holder(slot).map(|handle| (slot, handle)));
    match held {
        _ if past > SLOTS => Flaw::Beyond,
        Some((slot, handle)) => Flaw::Held { slot, handle },
        None => Flaw::Stopped(7),
    }
}

impl Pair<'_> {
    /// The line that a frame gives where its allocation, if it is one, is "exactly" where the list's line shows it.
    fn own_line(&self, session: &mut Session, i: usize, shown: &Line) -> Result<Line, Flaw> {
        let frame = self.script.frames[i];
        if shown.opcode != frame.opcode() {
            return Err(Flaw::Opcode);
        }
        let first = shown.operands.first().map_or(0, |a| usize::from(*a));
        session.scopes.slots.place(Placement::Exactly(first));
        let own = session.step(frame).map_err(|number| match number {
            7 => no_room(session, frame, first),
            number => Flaw::Stopped(number),
        })?;
        let of_ours = match self.plant {
            Some(Fault::DrainOfOurs) => frame == Frame::Drain,
            Some(Fault::NameOfOurs) => matches!(own.opcode, 0x0a | 0x0b | 0x12),
            _ => false,
        };
        Ok(match of_ours {
            true => self.ours[i].clone(),
            false => own,
        })
    }

    /// "the same lines and operands but for addresses, drain counts and size", which are the list's own. The size that they need.
    fn stand(&self) -> Result<usize, Why> {
        let mut session = Session::new(self.script.placement, self.plant);
        let line = |i| self.script.first_line() + i;
        let frames = self.script.frames.len();
        for i in 0..frames {
            let Some(shown) = self.lines.get(i) else {
                if self.plant == Some(Fault::LinesTooFew) {
                    break;
                }
                return Err(Why::Line(line(i), Flaw::TooFew));
            };
            let own = self.own_line(&mut session, i, shown);
            let flaw = own.map_or_else(Some, |own| flaw(&own, shown, self.plant));
            if let Some(flaw) = flaw {
                return Err(Why::Line(line(i), flaw));
            }
        }
        match self.lines.len() > frames && self.plant != Some(Fault::LinesTooMany) {
            true => Err(Why::Line(line(frames), Flaw::TooMany)),
            false => Ok(session.scopes.size()),
        }
    }
}

/// What is wrong with the line that is shown, beside its own.
fn flaw(own: &Line, shown: &Line, plant: Plant) -> Option<Flaw> {
    if own == shown || overlooked(own, shown, plant) {
        return None;
    }
    let same_first = own.operands.first() == shown.operands.first();
    Some(match own.opcode {
        0x0f if same_first => Flaw::Drained,
        0x0f => Flaw::Count,
        0x10 if same_first => Flaw::Operand,
        0x01 | 0x20..=0x22 => Flaw::Operand,
        0x08 | 0x23 | 0x24 if own.operands == [0xffff] => Flaw::NotNone,
        _ => Flaw::Address,
    })
}

/// Does a planted fault let the difference pass?
fn overlooked(own: &Line, shown: &Line, plant: Plant) -> bool {
    let sorted = |line: &Line| {
        let mut drained = line.operands.clone();
        drained.sort_unstable();
        drained
    };
    match plant {
        Some(Fault::ValueUnseen) => own.opcode == 0x10 && own.operands[0] == shown.operands[0],
        Some(Fault::ReadUnseen) => own.opcode == 0x11,
        Some(Fault::NoneUnseen) => {
            matches!(own.opcode, 0x08 | 0x23 | 0x24) && own.operands == [0xffff]
        }
        Some(Fault::DrainUnordered) => own.opcode == 0x0f && sorted(own) == sorted(shown),
        _ => false,
    }
}

/// "every address is below the size"
fn below_the_size(needed: usize, size: usize, plant: Plant) -> Result<(), Why> {
    let right = match plant {
        Some(Fault::SizeUnseen) => true,
        Some(Fault::SizeExact) => needed == size,
        _ => needed <= size,
    };
    match right {
        true => Ok(()),
        false => Err(Why::Size(needed)),
    }
}

fn judged(script: &Script, lines: &[Line], size: usize, plant: Plant) -> Result<(), Why> {
    let pair = Pair {
        script,
        ours: accepted(script, plant)?,
        lines: behind_titles(script, lines, plant)?,
        plant,
    };
    below_the_size(pair.stand()?, size, plant)
}

/// "Refusals: the text numbers 1 and 2, script before list."
pub fn verdict_with(script: &[u8], list: &[u8], plant: Plant) -> Result<Verdict, Refusal> {
    let list = read_list_with(list, plant);
    if let (Err(refusal), Some(Fault::ListFirst)) = (&list, plant) {
        return Err(*refusal);
    }
    let script = read_script(script, plant)?;
    let (lines, size) = list?;
    match judged(&script, &lines, size, plant) {
        Ok(()) => Ok(Verdict::Yes),
        Err(Why::Refused(refusal)) if plant == Some(Fault::RefusalGiven) => Err(refusal),
        Err(why) => Ok(Verdict::No(why)),
    }
}

/// See [`verdict_with`].
pub fn verdict(script: &[u8], list: &[u8]) -> Result<Verdict, Refusal> {
    verdict_with(script, list, None)
}

/// As the exported function answers: 1 for yes, 0 for no, or a refusal.
pub fn agrees_with(script: &[u8], list: &[u8], plant: Plant) -> u64 {
    match verdict_with(script, list, plant) {
        Ok(verdict) => u64::from(verdict == Verdict::Yes),
        Err(refusal) => refusal.answer(),
    }
}

/// See [`agrees_with`].
pub fn agrees(script: &[u8], list: &[u8]) -> u64 {
    agrees_with(script, list, None)
}
