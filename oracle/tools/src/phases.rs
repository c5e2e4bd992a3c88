//! The phases of a comparison.

use crate::bare::{self, BareTally, Call, End, Player};
use crate::campaign::Counts;
use crate::comparison::Comparison;
use crate::ours::Ours;
use crate::rng::Rng;
use crate::{bare_calls, damage, every, lists, random, records, sessions};
use model::{Frame, Placement, Script};
use std::collections::BTreeMap;

/// Every script of up to `longest` frames over the alphabet.
pub fn every_script(comparison: &mut Comparison, alphabet: &[Frame], longest: usize) {
    every::every(Placement::ByHead, alphabet, longest, &mut |frames| {
        comparison.offer(Frame::script(frames))
    });
    comparison.settle();
}

/// The same in edition 2, with the title before them: by the model only.
pub fn every_tight_script(comparison: &mut Comparison, alphabet: &[Frame], longest: usize) {
    by_model(comparison, |comparison| {
        every::every(Placement::Lowest, alphabet, longest, &mut |frames| {
            comparison.offer(Script::tight(frames).text())
        });
    });
}

/// What the original doesn't know is held against the model only.
fn by_model(comparison: &mut Comparison, phase: impl FnOnce(&mut Comparison)) {
    let against = comparison.against;
    comparison.against.original = false;
    comparison.against.model = true;
    phase(comparison);
    comparison.settle();
    comparison.against = against;
}

/// Scripts by chance; where the last frame is refused, what stands before it is a script of its own.
/// Says how many scripts each profile gave.
pub fn random_scripts(
    comparison: &mut Comparison,
    source: random::Source,
    count: u64,
    seed: u64,
) -> BTreeMap<&'static str, u64> {
    let mut rng = Rng::new(seed);
    let mut profiles = BTreeMap::new();
    for _ in 0..count {
        let mut made = source(&mut rng);
        *profiles.entry(made.profile).or_default() += 1;
        let mut more = comparison.offer(made.text());
        if made.refused {
            made.frames.pop();
            more = comparison.offer(made.text());
        }
        if !more {
            break;
        }
    }
    comparison.settle();
    profiles
}

/// Scripts of all kinds by chance in edition 2: by the model only.
pub fn random_tight_scripts(
    comparison: &mut Comparison,
    count: u64,
    seed: u64,
) -> BTreeMap<&'static str, u64> {
    let mut profiles = BTreeMap::new();
    by_model(comparison, |comparison| {
        profiles = random_scripts(comparison, random::tight, count, seed);
    });
    profiles
}

/// The sessions of edition 2: by the model only.
pub fn sessions_of_edition_2(comparison: &mut Comparison) {
    by_model(comparison, |comparison| {
        let mut short = sessions::edition_2();
        short.extend(sessions::sizes_of_edition_2());
        short_and_long(comparison, short, &sessions::long_edition_2());
    });
}

/// The scripts of stored answers.
pub fn stored_scripts(comparison: &mut Comparison) {
    for script in records::stored_scripts() {
        comparison.offer(script);
    }
    comparison.settle();
}

/// The sessions of needs: some have 64 needs, which no short script has.
pub fn sessions_of_needs(comparison: &mut Comparison) {
    for script in sessions::needs() {
        comparison.offer(script);
    }
    comparison.settle();
}

/// The sessions at the limits of slots and handles, and the longest list: few short scripts get there.
pub fn sessions_of_sizes(comparison: &mut Comparison) {
    short_and_long(comparison, sessions::sizes(), &[sessions::longest()]);
}

/// A long script isn't made small quickly: it has its turn where no short one shows a difference.
fn short_and_long(comparison: &mut Comparison, short: Vec<Vec<u8>>, long: &[Vec<u8>]) {
    for script in short {
        comparison.offer(script);
    }
    comparison.settle();
    if comparison.found.is_empty() {
        for script in long {
            comparison.offer(script.clone());
        }
        comparison.settle();
    }
}

/// The sessions of samples.
pub fn sessions_of_samples(comparison: &mut Comparison) {
    for script in sessions::samples() {
        comparison.offer(script);
    }
    comparison.settle();
}

/// Every text of up to so many lines: by the model only, likewise.
pub fn every_text(comparison: &mut Comparison, longest: usize) {
    by_model(comparison, |comparison| {
        damage::every(longest, &mut |text| comparison.offer(text));
    });
}

/// Damaged texts: by the model only, since the original reads none.
pub fn damaged_texts(comparison: &mut Comparison, count: u64, seed: u64) {
    let mut rng = Rng::new(seed);
    by_model(comparison, |comparison| {
        for _ in 0..count {
            if !comparison.offer(damage::text(&mut rng)) {
                break;
            }
        }
    });
}

/// A run of bare `Slots`, counted. A difference is cut down to its shortest end.
fn bare_run(calls: &[Call], ours: Player, tally: &mut BareTally) -> Option<(Vec<Call>, End)> {
    let (end, went) = bare::play(calls, ours);
    match tally.count(&end, went) {
        true => None,
        false => Some(smallest(calls.to_vec(), ours)),
    }
}

/// The original's `Slots` by itself, on every run of so many calls.
pub fn bare_every(count: usize, ours: Player) -> (BareTally, Option<(Vec<Call>, End)>) {
    let mut tally = BareTally::default();
    let mut found = None;
    bare_calls::every(count, &mut |calls| {
        found = bare_run(calls, ours, &mut tally);
        found.is_none()
    });
    (tally, found)
}

/// The same on runs by chance.
pub fn bare_runs(count: u64, seed: u64, ours: Player) -> (BareTally, Option<(Vec<Call>, End)>) {
    let mut rng = Rng::new(seed);
    let mut tally = BareTally::default();
    for _ in 0..count {
        let found = bare_run(&bare_calls::by_chance(&mut rng), ours, &mut tally);
        if found.is_some() {
            return (tally, found);
        }
    }
    (tally, None)
}

fn smallest(mut calls: Vec<Call>, ours: Player) -> (Vec<Call>, End) {
    let mut size = calls.len();
    while size > 0 {
        let mut at = 0;
        while at < calls.len() {
            let mut fewer = calls.clone();
            fewer.drain(at..(at + size).min(calls.len()));
            match bare::play(&fewer, ours).0 {
                End::Differs(..) => calls = fewer,
                _ => at += size,
            }
        }
        size /= 2;
    }
    let end = bare::play(&calls, ours).0;
    (calls, end)
}

/// The runs by chance by the model, whole: past a refusal, where H > L, and in edition 2. The first that differs, at which call.
pub fn bare_by_model(
    count: u64,
    seed: u64,
    placement: Placement,
    ours: Player,
) -> (BareTally, Option<(Vec<Call>, usize)>) {
    let mut rng = Rng::new(seed);
    let mut tally = BareTally::default();
    for _ in 0..count {
        let calls = bare_calls::by_chance(&mut rng);
        let (rows, model) = (ours(&calls), bare::model_rows(&calls, placement, None));
        if let Some(i) = (0..calls.len()).find(|i| rows[*i] != model[*i]) {
            return (tally, Some((calls, i)));
        }
        tally.runs += 1;
        tally.went.calls += calls.len() as u64;
    }
    (tally, None)
}

/// Lists to a run program, by the model: how they came out, and the first that it takes otherwise.
pub fn lists_run(runner: &mut dyn Ours, count: u64, seed: u64) -> (Counts, Option<Vec<u8>>) {
    let mut rng = Rng::new(seed);
    let mut counts = Counts::default();
    let mut left = count;
    while left > 0 {
        let n = left.min(runner.batch() as u64);
        let lists: Vec<Vec<u8>> = (0..n).map(|_| lists::list(&mut rng)).collect();
        let answers = runner.answers(&lists);
        for (list, printed) in lists.into_iter().zip(&answers) {
            if !counts.held(printed, &model::runner(&list)) {
                return (counts, Some(list));
            }
        }
        left -= n;
    }
    (counts, None)
}
