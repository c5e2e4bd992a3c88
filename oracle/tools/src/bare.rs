//! The original's `Slots` by itself against ours or the model's: every answer, L and H after each call, and at the end which slots are
//! occupied.

use crate::campaign::Counts;
use model::{Placement, Plant, Slots, SEGMENT, SLOTS};
use rune::Bare;
use std::fmt;

#[derive(Clone, Copy, Debug, PartialEq, Eq)]
pub enum Call {
    Insert,
    Push,
    Remove(usize),
}

/// How a run of calls ended.
#[derive(Clone, Debug, PartialEq, Eq)]
pub enum End {
    Equal,
    /// refused here by 7
    Refused,
    /// an insert met H > L
    HeadAboveLength,
    Differs(usize, String),
}

/// What went equally.
#[derive(Clone, Copy, Default, Debug, PartialEq, Eq)]
pub struct Went {
    pub calls: u64,
    /// of these, removals of a clear slot below L, which move the head
    pub clear: u64,
}

#[derive(Default)]
pub struct BareTally {
    pub runs: u64,
    pub went: Went,
    pub refused: u64,
    pub head_above_length: u64,
}

impl BareTally {
    /// False where the run shows a difference.
    pub fn count(&mut self, end: &End, went: Went) -> bool {
        match end {
            End::Equal => {}
            End::Refused => self.refused += 1,
            End::HeadAboveLength => self.head_above_length += 1,
            End::Differs(..) => return false,
        }
        self.runs += 1;
        self.went.calls += went.calls;
        self.went.clear += went.clear;
        true
    }

    /// Of the runs that are no difference.
    pub fn counts(&self) -> Counts {
        Counts {
            equal: self.runs - self.refused - self.head_above_length,
            ours: self.refused,
            outside: self.head_above_length,
            ..Counts::default()
        }
    }
}

impl fmt::Display for BareTally {
    fn fmt(&self, f: &mut fmt::Formatter<'_>) -> fmt::Result {
        let Went { calls, clear } = self.went;
        writeln!(f, "{} runs, {calls} calls equal", self.runs)?;
        writeln!(f, "  {clear:>10}  of them removed a clear slot below L")?;
        writeln!(f, "  {:>10}  runs ended by 7", self.refused)?;
        let met = self.head_above_length;
        write!(
            f,
            "  {met:>10}  runs ended outside the domain: HeadAboveLength"
        )
    }
}

/// What a call answered, and L and H after it.
#[derive(Clone, Copy, Debug, PartialEq, Eq)]
pub struct Row {
    /// the address; yes 1, no 0; or a refusal: 65,536 and its number
    pub answer: usize,
    pub length: usize,
    pub head: usize,
}

const REFUSED: usize = 65536;

/// Plays a run from fresh slots: a row a call.
pub type Player<'a> = &'a mut dyn FnMut(&[Call]) -> Vec<Row>;

/// The model's rows, perhaps with a fault.
pub fn model_rows(calls: &[Call], placement: Placement, plant: Plant) -> Vec<Row> {
    let mut slots = Slots::new(placement, plant);
    let row = |call: &Call| {
        let answer = match call {
            Call::Insert => slots.insert().unwrap_or(REFUSED + 7),
            Call::Push => slots.push().unwrap_or(REFUSED + 7),
            Call::Remove(a) => slots.remove(*a).into(),
        };
        Row {
            answer,
            length: slots.length(),
            head: slots.head(),
        }
    };
    calls.iter().map(row).collect()
}

/// The original's row, unless the call ends the run: no limit refuses it there.
fn original_row(call: Call, ours: Row, theirs: &mut Bare) -> Result<Row, End> {
    if call == Call::Insert && theirs.head() > theirs.length() {
        return Err(End::HeadAboveLength);
    }
    if ours.answer == REFUSED + 7 {
        return Err(End::Refused);
    }
    let answer = match call {
        Call::Insert => theirs.insert(),
        Call::Push => theirs.push(),
        Call::Remove(a) => theirs.remove(a).into(),
    };
    Ok(Row {
        answer,
        length: theirs.length(),
        head: theirs.head(),
    })
}

fn compared(call: Call, ours: Row, theirs: &mut Bare) -> Result<(), End> {
    let row = original_row(call, ours, theirs)?;
    match row == ours {
        true => Ok(()),
        false => Err(End::Differs(
            0,
            format!("ours {ours:?}, the original {row:?}"),
        )),
    }
}

/// How the calls end, and what went equally before. At the end every slot is removed: yes says that it was occupied.
pub fn play(calls: &[Call], ours: Player) -> (End, Went) {
    let mut whole = calls.to_vec();
    whole.extend((0..SLOTS).map(Call::Remove));
    let rows = ours(&whole);
    let mut theirs = Bare::default();
    let mut went = Went::default();
    for (i, call) in calls.iter().enumerate() {
        let clear = matches!(*call, Call::Remove(a) if a / SEGMENT < theirs.length() && !theirs.occupied(a));
        match compared(*call, rows[i], &mut theirs) {
            Ok(()) => {}
            Err(End::Differs(_, why)) => return (End::Differs(i, why), went),
            Err(end) => return (end, went),
        }
        went.calls += 1;
        went.clear += u64::from(clear);
    }
    let held = |a: &usize| rows[calls.len() + a].answer == 1;
    match (0..SLOTS).find(|a| held(a) != theirs.occupied(*a)) {
        None => (End::Equal, went),
        Some(a) => {
            let why = format!("slot {a} is occupied on one side only");
            (End::Differs(calls.len(), why), went)
        }
    }
}
