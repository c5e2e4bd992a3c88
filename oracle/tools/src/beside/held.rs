//! Which allocation holds which slot, from frame to frame.

use model::{Script, Session};
use rune::Held;

/// Two allocations that hold one slot at one time.
#[derive(Clone, Debug, PartialEq, Eq)]
pub struct Shared {
    pub slot: usize,
    pub older: Held,
    pub newer: Held,
}

impl Shared {
    /// The line that ends it, if one does.
    pub fn until(&self) -> Option<usize> {
        let (a, b) = (self.older.until, self.newer.until);
        a.into_iter().chain(b).min()
    }
}

/// All of them, in the order of the lines that gave a slot again.
pub fn shared(held: &[Held]) -> Vec<Shared> {
    let mut by_slot: Vec<&Held> = held.iter().collect();
    by_slot.sort_by_key(|h| (h.slot, h.from, h.handle));
    let mut found = Vec::new();
    let mut holders: Vec<&Held> = Vec::new();
    for newer in by_slot {
        holders.retain(|h| h.slot == newer.slot && h.until.is_none_or(|end| end > newer.from));
        found.extend(holders.iter().map(|older| Shared {
            slot: newer.slot,
            older: **older,
            newer: *newer,
        }));
        holders.push(newer);
    }
    found.sort_by_key(|s| (s.newer.from, s.newer.handle));
    found
}

/// The first number after the opcode.
fn address(line: &str) -> Option<usize> {
    usize::from_str_radix(line.get(2..6)?, 16).ok()
}

/// From a list that was printed: its lines have the addresses. Who lets go when doesn't depend on addresses, so a session of
/// the model goes along.
pub fn by_list(script: &Script, lines: &[String]) -> Vec<Held> {
    let mut session = Session::new(script.placement, None);
    let mut held: Vec<Held> = Vec::new();
    for (line, (frame, printed)) in script.frames.iter().zip(lines).enumerate() {
        let before = session.handed();
        if session.step(*frame).is_err() {
            break;
        }
        let Some(first) = address(printed).filter(|_| session.handed() > before) else {
            let_go(&mut held, &session, line);
            continue;
        };
        held.extend((before..session.handed()).map(|handle| Held {
            handle,
            slot: first + handle - before,
            from: line,
            until: None,
        }));
    }
    held
}

fn let_go(held: &mut [Held], session: &Session, line: usize) {
    for one in held.iter_mut().filter(|h| h.until.is_none()) {
        if !session.holds(one.handle) {
            one.until = Some(line);
        }
    }
}
