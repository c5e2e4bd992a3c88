//! Other fair placements than our two: they give clear slots alone, those of a run consecutive. So a supplier's translator may place (W-203).

use crate::rng::Rng;
use model::{title, Frame, Line, Placement, Script, Session, Slots, SLOTS};

/// Where n slots go: the first of them, or none where this placement has no room.
pub type Choose = fn(&mut Rng, &Slots, usize) -> Option<usize>;

/// Each by its name.
pub const PLACEMENTS: [(&str, Choose); 7] = [
    ("anywhere", anywhere),
    ("nearby", nearby),
    ("first fit", |_, slots, n| firsts(slots, n).next()),
    ("highest", |_, slots, n| {
        fitting(slots, n).last().map(|f| f.0 + f.1 - n)
    }),
    ("best fit", |_, slots, n| {
        fitting(slots, n).min_by_key(|f| f.1).map(|f| f.0)
    }),
    ("worst fit", |_, slots, n| {
        fitting(slots, n).max_by_key(|f| f.1).map(|f| f.0)
    }),
    ("every other", every_other),
];

/// The stretches of clear slots that nothing clear is beside: the first slot and the length of each.
fn stretches(slots: &Slots) -> Vec<(usize, usize)> {
    let mut found: Vec<(usize, usize)> = Vec::new();
    for slot in (0..SLOTS).filter(|slot| !slots.occupied(*slot)) {
        match found.last_mut() {
            Some((first, length)) if *first + *length == slot => *length += 1,
            _ => found.push((slot, 1)),
        }
    }
    found
}

/// Those that have n slots or more.
fn fitting(slots: &Slots, n: usize) -> impl Iterator<Item = (usize, usize)> {
    let long = stretches(slots).into_iter();
    long.filter(move |(_, length)| *length >= n)
}

/// Every slot from which n are clear.
fn firsts(slots: &Slots, n: usize) -> impl Iterator<Item = usize> + Clone {
    let of = move |(first, length): (usize, usize)| first..=first + length - n;
    let long: Vec<(usize, usize)> = fitting(slots, n).collect();
    long.into_iter().flat_map(of)
}

fn one_of(rng: &mut Rng, mut firsts: impl Iterator<Item = usize> + Clone) -> Option<usize> {
    let count = firsts.clone().count();
    firsts.nth(rng.below(count))
}

fn anywhere(rng: &mut Rng, slots: &Slots, n: usize) -> Option<usize> {
    one_of(rng, firsts(slots, n))
}

/// One of the lowest few, so that slots are given again soon.
fn nearby(rng: &mut Rng, slots: &Slots, n: usize) -> Option<usize> {
    one_of(rng, firsts(slots, n).take(4))
}

/// Even slots while there are any.
fn every_other(_: &mut Rng, slots: &Slots, n: usize) -> Option<usize> {
    let mut firsts = firsts(slots, n);
    let lowest = firsts.clone().next();
    firsts.find(|first| first % 2 == 0).or(lowest)
}

/// How many slots a frame asks for, where it does.
fn asks(frame: Frame) -> Option<usize> {
    match frame {
        Frame::Alloc | Frame::AllocIn(_) | Frame::AllocNeed(_) => Some(1),
        Frame::Linear(n @ 1..) => Some(n.into()),
        _ => None,
    }
}

/// The lines of a list.
pub struct Supplied {
    pub lines: Vec<Line>,
    pub size: usize,
    /// none of the script's frames was refused
    pub whole: bool,
}

/// The list of a script by a placement, or its beginning where a frame is refused.
pub fn supplied(rng: &mut Rng, script: &Script, choose: Choose) -> Supplied {
    let mut session = Session::new(script.placement, None);
    let mut lines = Vec::new();
    if script.is_titled() {
        lines.push(title());
    }
    for frame in &script.frames {
        if let Some(n) = asks(*frame) {
            let first = choose(rng, &session.scopes.slots, n);
            // the slot past the last one can't be given
            let at = Placement::Exactly(first.unwrap_or(SLOTS));
            session.scopes.slots.place(at);
        }
        match session.step(*frame) {
            Ok(line) => lines.push(line),
            Err(_) => break,
        }
    }
    Supplied {
        whole: lines.len() == script.first_line() + script.frames.len(),
        size: session.scopes.size(),
        lines,
    }
}
