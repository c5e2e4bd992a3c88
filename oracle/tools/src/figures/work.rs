//! What all sides do: pairs over bare slots, scripts of several kinds of a given number of frames, lists of stores and loads, a recording.

use model::Frame::{self, *};
use model::{NeedNumber, Source, LINES, NEEDS};

/// A kind's name, and its script of n frames.
pub type Kind = (&'static str, fn(usize) -> Vec<Frame>);

pub const KINDS: [Kind; 10] = [
    ("alloc and free, in turn", pairs),
    ("alloc, write, read, free", mix),
    ("scopes 8 deep with names", names),
    ("look-ups through up to 63 scopes", climbs),
    ("a run and its freeing", runs),
    ("a run of 16, its freeing, a drain", drains),
    ("a need: defer, allocate, output, .., free", needs),
    ("allocate, output, write, read, over needs", asked),
    ("alloc and free, in turn, beside needs", beside),
    ("alloc and free, in turn, above 4,000 slots", above),
];

/// By how much the slot of the next pair is further on, and which slots that gives among half of them, 2,048.
pub const STRIDES: [(u16, &str); 4] = [
    (0, "slot 0"),
    (1, "0, 1, 2 .. 2047"),
    (37, "0, 37, 74 .. modulo 2048"),
    (128, "0, 128, 256 .. 1920"),
];

/// 64, and twice as many up to the longest script.
pub const LENGTHS: [usize; 6] = [64, 128, 256, 512, LINES / 2, LINES];

fn pairs(n: usize) -> Vec<Frame> {
    let frame = |i: usize| match i % 2 {
        0 => Alloc,
        _ => Free((i / 2) as u16),
    };
    (0..n).map(frame).collect()
}

fn write(handle: u16, value: usize) -> Frame {
    Write {
        handle,
        source: Source::Constant(value as u16),
    }
}

fn mix(n: usize) -> Vec<Frame> {
    let frame = |i: usize| {
        let handle = (i / 4) as u16;
        match i % 4 {
            0 => Alloc,
            1 => write(handle, i),
            2 => Read(handle),
            _ => Free(handle),
        }
    };
    (0..n).map(frame).collect()
}

const OUTER: u16 = 1000;

/// Each scope binds a name and looks up its own and root's; eight are opened, then closed.
fn names(n: usize) -> Vec<Frame> {
    let define = |name| Define { name, handle: 0 };
    let mut frames = vec![Alloc, define(OUTER)];
    let mut number = 0;
    while frames.len() < n {
        for depth in 0..8 {
            frames.extend([Child, define(depth), Get(depth), Get(OUTER)]);
        }
        frames.extend((number + 1..number + 9).rev().map(Pop));
        number += 8;
    }
    frames.truncate(n);
    frames
}

/// As many scopes and names as half the frames have room for, then root's name is looked up from the innermost.
fn climbs(n: usize) -> Vec<Frame> {
    let mut frames = vec![
        Alloc,
        Define {
            name: OUTER,
            handle: 0,
        },
    ];
    for scope in 0..62 {
        if frames.len() + 5 > n / 2 {
            break;
        }
        frames.push(Child);
        frames.extend((0..4).map(|i| Define {
            name: 4 * scope + i,
            handle: 0,
        }));
    }
    frames.resize(n, Get(OUTER));
    frames
}

/// Twice: a run of half as many slots as there are frames, but for one, and each of them freed, the last first.
fn runs(n: usize) -> Vec<Frame> {
    let slots = (n / 2 - 1) as u16;
    let mut frames = Vec::new();
    for first in [0, slots] {
        frames.push(Linear(slots));
        frames.extend((first..first + slots).rev().map(Free));
    }
    frames
}

fn drains(n: usize) -> Vec<Frame> {
    let mut frames = Vec::new();
    let mut first = 0;
    while frames.len() < n {
        frames.push(Linear(16));
        frames.extend((first..first + 16).map(Free));
        frames.push(Drain);
        first += 16;
    }
    frames.truncate(n);
    frames
}

/// How many needs a script of n frames has: four frames for each, while there is room for them.
fn needed(n: usize) -> usize {
    NEEDS.min(n / 4)
}

/// One need after another: deferred, allocated, asked for its output and its address again as long as frames are left for it, freed.
fn needs(n: usize) -> Vec<Frame> {
    let each = n / needed(n);
    let frame = |i: usize| {
        let need = NeedNumber((i / each) as u16);
        match i % each {
            0 => Defer(0),
            last if last == each - 1 => FreeNeed(need),
            odd if odd % 2 == 1 => AllocNeed(need),
            _ => Output(need),
        }
    };
    (0..n).map(frame).collect()
}

/// All needs are deferred, then asked in turn; the first round allocates them, so a need's handle has its number.
fn asked(n: usize) -> Vec<Frame> {
    let needs = needed(n);
    let frame = |i: usize| {
        let place = (i / 4 % needs) as u16;
        match i % 4 {
            0 => AllocNeed(NeedNumber(place)),
            1 => Output(NeedNumber(place)),
            2 => write(place, i),
            _ => Read(place),
        }
    };
    let deferred = (0..needs).map(|_| Defer(0));
    deferred.chain((0..n - needs).map(frame)).collect()
}

/// All needs are deferred and allocated; each free has to tell its handle from theirs.
fn beside(n: usize) -> Vec<Frame> {
    let needs = needed(n);
    let made = |i: usize| match i % 2 {
        0 => Defer(0),
        _ => AllocNeed(NeedNumber((i / 2) as u16)),
    };
    let frame = |i: usize| match i % 2 {
        0 => Alloc,
        _ => Free((needs + i / 2) as u16),
    };
    let made = (0..2 * needs).map(made);
    made.chain((0..n - 2 * needs).map(frame)).collect()
}

/// A run of 4,000 slots stays: the lowest clear slot is in the last segment.
fn above(n: usize) -> Vec<Frame> {
    let run = 4000;
    let frame = |i: usize| match i % 2 {
        0 => Alloc,
        _ => Free(run + (i / 2) as u16),
    };
    let run = std::iter::once(Linear(run));
    run.chain((0..n - 1).map(frame)).collect()
}

/// How many lines the lists of figures have.
pub const LISTS: [usize; 5] = [1, 3, 10, 30, LINES];

/// So many lines, a store and a load in turn, over half as many cells; then the size.
pub fn list(lines: usize) -> Vec<u8> {
    stores_and_loads(lines, |cell, i| format!("10{cell:04x}{i:04x}\n"))
}

/// The same, but what is stored are samples.
pub fn sampled_list(lines: usize) -> Vec<u8> {
    stores_and_loads(lines, |cell, _| format!("14{cell:04x}\n"))
}

fn stores_and_loads(lines: usize, store: fn(usize, usize) -> String) -> Vec<u8> {
    let size = lines.div_ceil(2);
    let line = |i: usize| {
        let cell = i / 2 * 37 % size;
        match i % 2 {
            0 => store(cell, i),
            _ => format!("11{cell:04x}\n"),
        }
    };
    let mut list: String = (0..lines).map(line).collect();
    list += &format!("90{size:04x}\n");
    list.into_bytes()
}

/// How long the parts are in which a recording is fed: as hosts may read it, which is no size of ours.
pub const PARTS: [usize; 5] = [1, 7, 100, 4096, 65536];

/// A recording of a mebibyte, but for the last few bytes: whole lines of all kinds of numbers.
pub fn recording() -> Vec<u8> {
    let lines = (1 << 20) / 7;
    let line = |i: usize| format!("30{:04x}\n", i * 40_503 % 65_536);
    (0..lines).flat_map(|i| line(i).into_bytes()).collect()
}
