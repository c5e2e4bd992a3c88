//! Edition 2 a second time: the sets of occupied and of clear slots say where a slot is, with neither L nor H. Who lets go of a slot, and when,
//! doesn't depend on where it is: that a session of the model says.

use model::{Frame, Placement, Script, Session, SLOTS};
use std::collections::{BTreeMap, BTreeSet};

struct Sets {
    occupied: BTreeSet<usize>,
    /// those below the size: from there on all are clear
    clear: BTreeSet<usize>,
    /// by handle
    held: BTreeMap<usize, usize>,
    size: usize,
}

impl Sets {
    fn new() -> Sets {
        Sets {
            occupied: BTreeSet::new(),
            clear: BTreeSet::new(),
            held: BTreeMap::new(),
            size: 0,
        }
    }

    /// Where the frame's slot, or the first one of its run, is; none where there is no room for it.
    fn place(&self, frame: Frame) -> Option<usize> {
        match frame {
            Frame::Linear(n @ 2..) => {
                let first = self.occupied.last().map_or(0, |greatest| greatest + 1);
                (first + usize::from(n) <= SLOTS).then_some(first)
            }
            _ => {
                let past = (self.size < SLOTS).then_some(self.size);
                self.clear.first().copied().or(past)
            }
        }
    }

    fn take(&mut self, handle: usize, slot: usize) {
        self.clear.remove(&slot);
        self.occupied.insert(slot);
        self.held.insert(handle, slot);
        self.size = self.size.max(slot + 1);
    }

    fn let_go(&mut self, session: &Session) {
        let gone = self
            .held
            .iter()
            .filter(|(handle, _)| !session.holds(**handle));
        for (handle, slot) in gone.map(|(h, s)| (*h, *s)).collect::<Vec<_>>() {
            self.held.remove(&handle);
            self.occupied.remove(&slot);
            self.clear.insert(slot);
        }
    }
}

/// May a slot go back?
fn lets_go(frame: Frame) -> bool {
    use Frame::{Free, FreeNeed, FreeQuietly, Pop, PopLast};
    matches!(
        frame,
        Pop(_) | PopLast | Free(_) | FreeQuietly(_) | FreeNeed(_)
    )
}

/// The number after the opcode.
fn operand(line: &str) -> Option<usize> {
    usize::from_str_radix(line.get(2..6)?, 16).ok()
}

/// What is wrong with the answer to a script of edition 2, by the sets. Of a refusal only 7 is looked at: the others don't depend on slots.
pub fn wrong(script: &Script, printed: &[u8]) -> Option<String> {
    let text = String::from_utf8_lossy(printed);
    let lines: Vec<&str> = text.lines().collect();
    let accepted = !text.starts_with("ee");
    if accepted && lines.first() != Some(&"f00002") {
        return Some("line 0: the list doesn't repeat the title".into());
    }
    let shown = |line: usize| lines.get(line).and_then(|l| operand(l));
    let mut session = Session::new(Placement::Lowest, None);
    let mut sets = Sets::new();
    for (line, frame) in (1..).zip(&script.frames) {
        let (place, handed) = (sets.place(*frame), session.handed());
        match (session.step(*frame), place) {
            (Err(7), Some(slot)) => {
                return Some(format!("line {line}: 7, by the sets slot {slot}"));
            }
            (Err(_), _) => return None,
            (Ok(_), _) => {}
        }
        if session.handed() > handed {
            if accepted && shown(line) != place {
                return Some(format!("line {line}: by the sets {place:?}"));
            }
            let run = (handed..session.handed()).zip(place?..);
            run.for_each(|(handle, slot)| sets.take(handle, slot));
        }
        if lets_go(*frame) {
            sets.let_go(&session);
        }
    }
    let right = !accepted || lines.last().and_then(|l| operand(l)) == Some(sets.size);
    (!right).then(|| format!("size: by the sets {}", sets.size))
}
