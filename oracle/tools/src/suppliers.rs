//! Scripts, and lists from elsewhere beside them (W-203): by chance, placed by all kinds of fair placements and damaged once, and every short one.

use crate::damage::damage_once;
use crate::every;
use crate::placements::{supplied, Supplied, PLACEMENTS};
use crate::random;
use crate::rng::Rng;
use model::{is_titled, play_script, title, write_list, Frame, Line, NeedNumber};
use model::{Placement, Script, Source, SLOTS};
use std::fmt;

/// A script and a list.
#[derive(Clone, Debug, PartialEq, Eq)]
pub struct Case {
    pub script: Vec<u8>,
    pub list: Vec<u8>,
    /// the list is the script's by a fair placement: a yes, unless our rules refuse the script
    pub fair: bool,
}

impl fmt::Display for Case {
    fn fmt(&self, f: &mut fmt::Formatter<'_>) -> fmt::Result {
        let shown = |text: &[u8]| text.escape_ascii().to_string().replace("\\n", " / ");
        let (script, list) = (shown(&self.script), shown(&self.list));
        write!(f, "script {script}\n  list {list}")
    }
}

/// Our own list, or its beginning.
fn ours(script: &Script) -> Supplied {
    let mut taken = script.clone();
    let refused = play_script(script, None).1.err();
    if let Some(refusal) = refused {
        taken.frames.truncate(refusal.line - script.first_line());
    }
    let (session, lines) = play_script(&taken, None);
    Supplied {
        lines: lines.unwrap_or_default(),
        size: session.scopes.size(),
        whole: refused.is_none(),
    }
}

fn by_some_placement(rng: &mut Rng, script: &Script) -> Supplied {
    match rng.below(PLACEMENTS.len() + 1) {
        0 => ours(script),
        i => supplied(rng, script, PLACEMENTS[i - 1].1),
    }
}

/// Lines about the limit of either text, and a title at times.
fn at_the_limits(rng: &mut Rng) -> Case {
    let title: &[u8] = [&b""[..], b"f00002\n"][rng.below(2)];
    let most = model::LINES - usize::from(!title.is_empty());
    let lines = most + rng.below(3) - 1;
    let shown = match rng.below(3) {
        0 => most + rng.below(3) - 1,
        _ => lines,
    };
    Case {
        script: [title, &b"0f\n".repeat(lines)].concat(),
        list: [title, &b"0f0000\n".repeat(shown), b"900000\n"].concat(),
        fair: lines == shown && lines <= most,
    }
}

/// A run that has room in a gap alone, where we place none: our rules refuse it by 7, in either edition, and others don't.
fn crowded(rng: &mut Rng) -> Script {
    let n = 2 + rng.below(3);
    let first = rng.below(SLOTS - 2 * n);
    let mut frames = vec![Frame::Linear((SLOTS - rng.below(n)) as u16)];
    frames.extend((first..first + n).map(|handle| Frame::Free(handle as u16)));
    frames.push(Frame::Linear(n as u16));
    Script {
        placement: [Placement::ByHead, Placement::Lowest][rng.below(2)],
        frames,
    }
}

/// A script of any kind in either edition.
fn some_script(rng: &mut Rng) -> Script {
    let made = match rng.below(60) {
        0 => return crowded(rng),
        1..20 => random::tight(rng),
        _ => random::any(rng),
    };
    Script {
        placement: made.placement,
        frames: made.frames,
    }
}

/// By chance: a script, its list by any placement, one damage in most.
pub fn case(rng: &mut Rng) -> Case {
    if rng.once_in(250) {
        return at_the_limits(rng);
    }
    let mut script = some_script(rng);
    let mut list = by_some_placement(rng, &script);
    // else the list is too short, if the rest isn't refused
    if !rng.once_in(4) {
        script
            .frames
            .truncate(list.lines.len() - script.first_line());
        list.whole = true;
    }
    let sound = rng.below(5) < 2;
    if !sound {
        damage(rng, &mut list);
    }
    let mut case = Case {
        script: script.text(),
        list: write_list(&list.lines, list.size),
        fair: sound && list.whole,
    };
    damage_bytes(rng, &mut case);
    case
}

/// Now and then a byte of the script, of the list, or of both.
fn damage_bytes(rng: &mut Rng, case: &mut Case) {
    let kind = rng.below(24);
    if kind < 2 {
        damage_once(rng, &mut case.script);
    }
    if (1..4).contains(&kind) {
        damage_once(rng, &mut case.list);
    }
    case.fair &= kind >= 4;
}

/// The places of the lines with one of these opcodes.
fn places(lines: &[Line], opcodes: &[u8]) -> Vec<usize> {
    let of = |i: &usize| opcodes.contains(&lines[*i].opcode);
    (0..lines.len()).filter(of).collect()
}

fn some_place(rng: &mut Rng, lines: &[Line], opcodes: &[u8]) -> Option<usize> {
    let places = places(lines, opcodes);
    places.get(rng.below(places.len())).copied()
}

/// The lines that show an address first.
const ADDRESSED: [u8; 11] = [
    0x06, 0x07, 0x08, 0x0a, 0x0b, 0x10, 0x11, 0x12, 0x14, 0x23, 0x24,
];

/// The lines that show a scope's or a need's number.
const NUMBERED: [u8; 4] = [0x01, 0x20, 0x21, 0x22];

/// Opcodes whose lines look alike.
const ALIKE: [&[u8]; 3] = [
    &[0x06, 0x07, 0x08, 0x0a, 0x0b, 0x11, 0x12, 0x14, 0x23, 0x24],
    &[0x01, 0x20, 0x21, 0x22, 0x23, 0x24],
    &[0x02, 0x03, 0x04, 0x05, 0x09, 0x0c, 0x0d, 0x0e, 0x25],
];

/// One damage; some leave a list that agrees.
fn damage(rng: &mut Rng, list: &mut Supplied) {
    let lines = &mut list.lines;
    match rng.below(16) {
        0..4 => readdress(rng, lines),
        4 => revalue(rng, lines),
        5 => recode(rng, lines),
        6..9 => rearrange(rng, lines),
        9..11 => redrain(rng, lines),
        11 => retitle(lines),
        12 => renumber(rng, lines),
        13 => shift(rng, list),
        _ => resize(rng, &mut list.size),
    }
}

/// Another address: a near one, one of another line, any, the first that isn't there, or `ffff`.
fn readdress(rng: &mut Rng, lines: &mut [Line]) {
    let opcodes = match rng.once_in(3) {
        true => &[0x08][..],
        false => &ADDRESSED,
    };
    let Some(at) = some_place(rng, lines, opcodes) else {
        return;
    };
    let other = some_place(rng, lines, &ADDRESSED).unwrap_or(at);
    let address = lines[at].operands[0];
    lines[at].operands[0] = match rng.below(8) {
        0 => address.wrapping_add(1),
        1 => address.wrapping_sub(1),
        2..5 => lines[other].operands[0],
        5 => rng.below(SLOTS + 1) as u16,
        6 => 0xffff,
        _ => rng.below(8) as u16,
    };
}

fn revalue(rng: &mut Rng, lines: &mut [Line]) {
    if let Some(at) = some_place(rng, lines, &[0x10]) {
        lines[at].operands[1] ^= 1 << rng.below(16);
    }
}

fn recode(rng: &mut Rng, lines: &mut [Line]) {
    let alike = ALIKE[rng.below(ALIKE.len())];
    if let Some(at) = some_place(rng, lines, alike) {
        lines[at].opcode = alike[rng.below(alike.len())];
    }
}

/// A line is dropped, doubled or added, or two change places.
fn rearrange(rng: &mut Rng, lines: &mut Vec<Line>) {
    let (one, other) = (rng.below(lines.len()), rng.below(lines.len()));
    let drain = Line {
        opcode: 0x0f,
        operands: vec![0],
    };
    match rng.below(4) {
        _ if lines.is_empty() => lines.push(drain),
        0 => drop(lines.remove(one)),
        1 => lines.insert(one, lines[one].clone()),
        2 => lines.insert(rng.below(lines.len() + 1), drain),
        _ => lines.swap(one, other),
    }
}

/// A drained address is dropped, doubled, changed, or changes places with the next; the count is right for what is left.
fn redrain(rng: &mut Rng, lines: &mut [Line]) {
    let mut drains = places(lines, &[0x0f]);
    let several = |i: &usize| lines[*i].operands.len() > 2;
    if drains.iter().any(several) {
        drains.retain(several);
    }
    let Some(at) = drains.get(rng.below(drains.len())).copied() else {
        return;
    };
    let drained = &mut lines[at].operands;
    let count = drained.len() - 1;
    let one = 1 + rng.below(count);
    match rng.below(5) {
        0 => drained.push(rng.below(8) as u16),
        _ if count == 0 => drained.push(rng.below(SLOTS) as u16),
        1 => drop(drained.remove(one)),
        2 => drained.push(drained[one]),
        3 => drained[one] = drained[one].wrapping_add(1),
        _ => drained.swap(one, 1 + one % count),
    }
    drained[0] = drained.len() as u16 - 1;
}

fn retitle(lines: &mut Vec<Line>) {
    match is_titled(lines) {
        true => drop(lines.remove(0)),
        false => lines.insert(0, title()),
    }
}

fn renumber(rng: &mut Rng, lines: &mut [Line]) {
    if let Some(at) = some_place(rng, lines, &NUMBERED) {
        lines[at].operands[0] ^= 1 << rng.below(3);
    }
}

/// Every address is higher by as much, up to the last slot and just past it: a list that agrees, or the first one that doesn't.
fn shift(rng: &mut Rng, list: &mut Supplied) {
    let most = SLOTS - list.size;
    let by = match rng.below(4) {
        0 => most,
        1 => most + 1,
        _ => rng.below(most + 1),
    };
    for line in &mut list.lines {
        let addresses = match line.opcode {
            0x0f => &mut line.operands[1..],
            0x10 => &mut line.operands[..1],
            opcode if ADDRESSED.contains(&opcode) => &mut line.operands[..],
            _ => continue,
        };
        let shown = addresses.iter_mut().filter(|a| **a != 0xffff);
        shown.for_each(|a| *a += by as u16);
    }
    if list.size > 0 {
        list.size = SLOTS.min(list.size + by);
    }
}

fn resize(rng: &mut Rng, size: &mut usize) {
    *size = match rng.below(6) {
        0 | 1 => size.saturating_sub(1),
        2 => *size + 1,
        3 => SLOTS,
        4 => 0,
        _ => rng.below(SLOTS + 1),
    };
}

/// What allocates, ends and shows allocations, and drains: 21 frames.
fn alphabet() -> Vec<Frame> {
    let (need, handle) = (NeedNumber(0), 0);
    let mut all = vec![Frame::Child, Frame::Pop(1), Frame::PopLast, Frame::Alloc];
    all.extend([Frame::AllocIn(0), Frame::Linear(0), Frame::Linear(2)]);
    all.extend([Frame::Define { name: 7, handle }, Frame::Get(7)]);
    all.extend([Frame::Free(0), Frame::Free(1), Frame::FreeQuietly(0)]);
    let source = Source::Constant(255);
    all.extend([Frame::Drain, Frame::Write { handle, source }]);
    all.extend([Frame::Read(0), Frame::ReadName(7), Frame::Defer(0)]);
    all.extend([Frame::Ignore, Frame::AllocNeed(need)]);
    all.extend([Frame::Output(need), Frame::FreeNeed(need)]);
    all
}

/// The addresses of short lists, the sizes of which go one further.
const SHORT: [u16; 3] = [0, 1, 2];

/// Every line of a short list for a frame: each address, each drain of up to two, each number that is near.
fn lines_for(frame: Frame) -> Vec<Line> {
    let opcode = frame.opcode();
    let operands: Vec<Vec<u16>> = match opcode {
        0x01 => vec![vec![1], vec![2]],
        0x20..=0x22 => vec![vec![0], vec![1]],
        0x10 => SHORT.map(|a| vec![a, 255]).to_vec(),
        0x0f => {
            let one = SHORT.map(|a| vec![1, a]);
            let two = SHORT.map(|a| SHORT.map(|b| vec![2, a, b]));
            [&[vec![0]], &one[..], &two.concat()].concat()
        }
        0x08 | 0x23 | 0x24 => [&SHORT[..], &[0xffff]]
            .concat()
            .iter()
            .map(|a| vec![*a])
            .collect(),
        opcode if ADDRESSED.contains(&opcode) => SHORT.map(|a| vec![a]).to_vec(),
        _ => vec![vec![]],
    };
    operands
        .into_iter()
        .map(|operands| Line { opcode, operands })
        .collect()
}

/// False once the taker wants no more.
fn every_list(
    frames: &[Frame],
    lines: &mut Vec<Line>,
    take: &mut dyn FnMut(&[Line]) -> bool,
) -> bool {
    let Some(frame) = frames.get(lines.len()) else {
        return take(lines);
    };
    for line in lines_for(*frame) {
        lines.push(line);
        let more = every_list(frames, lines, take);
        lines.pop();
        if !more {
            return false;
        }
    }
    true
}

/// Every script of up to so many frames, each with every short list that has its opcodes, of every size up to 3.
pub fn every(longest: usize, take: &mut dyn FnMut(Case) -> bool) -> bool {
    every::every(Placement::ByHead, &alphabet(), longest, &mut |frames| {
        let script = Frame::script(frames);
        every_list(frames, &mut Vec::new(), &mut |lines| {
            (0..=SHORT.len()).all(|size| {
                take(Case {
                    script: script.clone(),
                    list: write_list(lines, size),
                    fair: false,
                })
            })
        })
    })
}
