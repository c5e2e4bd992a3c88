//! Recordings and the runs beside them, ours against the model: the state and the kept samples after all parts, then the answer and all that was
//! lent. The original has neither.

use crate::campaign::Counts;
use crate::ours::PairProgram;
use crate::recordings::{self, Case};
use crate::rng::Rng;
use crate::shrink::shrink_lines;
use model::{Lent, Plant, Refusal};
use std::collections::BTreeMap;
use std::fmt;

/// Who reads recordings and runs lists beside them.
pub trait Recorder {
    fn read(&mut self, state: u64, samples: &mut [u8], part: &[u8]) -> u64;

    /// As the exported function answers.
    fn run(&mut self, list: &[u8], state: u64, samples: &[u8], lent: Lent<'_>) -> u64;

    fn name(&self) -> String;
}

/// The model, perhaps with a planted fault.
pub struct Modelled(pub Plant);

fn number(answer: Result<usize, Refusal>) -> u64 {
    match answer {
        Ok(bytes) => bytes as u64,
        Err(refusal) => refusal.answer(),
    }
}

impl Recorder for Modelled {
    fn read(&mut self, state: u64, samples: &mut [u8], part: &[u8]) -> u64 {
        model::read_recording_with(state, samples, part, self.0)
    }

    fn run(&mut self, list: &[u8], state: u64, samples: &[u8], lent: Lent<'_>) -> u64 {
        number(model::run_recorded_with(list, state, samples, lent, self.0))
    }

    fn name(&self) -> String {
        match self.0 {
            None => "the model".into(),
            Some(fault) => format!("the model with {fault:?}"),
        }
    }
}

/// What lent memory holds before a call.
const LENT: u8 = 0x5a;

/// All that a case shows: state and samples, the answer, and what was lent afterwards.
#[derive(Debug, PartialEq, Eq)]
struct Shown {
    state: u64,
    samples: Vec<u8>,
    answer: u64,
    lent: [Vec<u8>; 3],
}

fn shown(recorder: &mut dyn Recorder, case: &Case, parts: &[&[u8]]) -> Shown {
    let mut samples = vec![LENT; case.room.samples];
    let mut state = case.first;
    for part in parts {
        state = recorder.read(state, &mut samples, part);
    }
    let room = case.room;
    let mut lent = [room.cells, room.out, room.left].map(|bytes| vec![LENT; bytes]);
    let [cells, out, left] = &mut lent;
    let answer = recorder.run(&case.list, state, &samples, Lent { cells, out, left });
    Shown {
        state,
        samples,
        answer,
        lent,
    }
}

/// By the model, which reads the recording in one part: "where they are cut changes nothing".
fn expected(case: &Case) -> Shown {
    shown(&mut Modelled(None), case, &[&case.recording])
}

fn differs(ours: &mut dyn Recorder, case: &Case) -> Option<String> {
    differs_from(&expected(case), ours, case)
}

fn differs_from(expected: &Shown, ours: &mut dyn Recorder, case: &Case) -> Option<String> {
    let found = shown(ours, case, &case.parts());
    if found == *expected {
        return None;
    }
    let told = |s: &Shown| format!("state {:#x}, answer {:#x}", s.state, s.answer);
    let (theirs, ours) = (told(expected), told(&found));
    Some(match theirs == ours {
        false => format!("the model: {theirs}; ours: {ours}"),
        true => format!("{theirs}, and lent memory differs"),
    })
}

/// How many cases came out as the model says, and how.
#[derive(Default)]
pub struct Outcomes {
    cases: u64,
    pub parts: u64,
    bytes: u64,
    labels: BTreeMap<String, u64>,
}

impl Outcomes {
    fn count(&mut self, case: &Case, expected: &Shown) {
        self.cases += 1;
        self.parts += case.cuts.len() as u64 + 1;
        self.bytes += case.recording.len() as u64;
        let label = match (expected.answer >> 32, &expected.lent[2]) {
            (0, left) if left[..4] == [0; 4] => "ran, no sample left over".into(),
            (0, _) => "ran, with samples left over".into(),
            (number, _) => format!("refused by {number:2}"),
        };
        *self.labels.entry(label).or_default() += 1;
    }

    pub fn counts(&self) -> Counts {
        let ran = self.labels.iter().filter(|(l, _)| l.starts_with("ran"));
        let taken = ran.map(|(_, count)| count).sum();
        Counts {
            taken,
            refused: self.cases - taken,
            ..Counts::default()
        }
    }
}

impl fmt::Display for Outcomes {
    fn fmt(&self, f: &mut fmt::Formatter<'_>) -> fmt::Result {
        let (cases, parts, bytes) = (self.cases, self.parts, self.bytes);
        write!(f, "{cases} recordings, {bytes} bytes in {parts} parts")?;
        for (label, count) in &self.labels {
            write!(f, "\n  {count:>10}  {label}")?;
        }
        Ok(())
    }
}

/// The recording cut everywhere, so that it stays so without some of its lines; room for few samples.
fn plainer(case: &Case) -> Vec<Case> {
    let mut cases = vec![case.clone()];
    cases[0].cuts = vec![1; case.recording.len()];
    for samples in [0, 2, 4] {
        let mut fewer = cases[0].clone();
        fewer.room.samples = samples;
        cases.push(fewer);
    }
    cases
}

fn fewer_lines(mut case: Case, ours: &mut dyn Recorder) -> Case {
    let mut fewer = case.clone();
    case.list = shrink_lines(&case.list, &mut |list| {
        fewer.list = list.to_vec();
        differs(ours, &fewer).is_some()
    });
    case
}

/// Fewer lines of the list, a plainer case, fewer lines of the recording and of the list again, which took samples of it, fewer cuts.
fn smallest(case: Case, ours: &mut dyn Recorder) -> Case {
    let mut case = fewer_lines(case, ours);
    for plainer in plainer(&case) {
        if differs(ours, &plainer).is_some() {
            case = plainer;
        }
    }
    let mut fewer = case.clone();
    case.recording = shrink_lines(&case.recording, &mut |recording| {
        fewer.recording = recording.to_vec();
        differs(ours, &fewer).is_some()
    });
    case = fewer_lines(case, ours);
    fewer_cuts(case, ours)
}

/// Each part joined to the one behind it, where that shows the difference too.
fn fewer_cuts(mut case: Case, ours: &mut dyn Recorder) -> Case {
    case.cuts = case.parts().iter().map(|part| part.len()).collect();
    for at in (0..case.cuts.len()).rev() {
        let mut fewer = case.clone();
        let length = fewer.cuts.remove(at);
        if let Some(next) = fewer.cuts.get_mut(at) {
            *next += length;
        }
        if differs(ours, &fewer).is_some() {
            case = fewer;
        }
    }
    case
}

/// Cases by chance; the first that differs, made small, and how.
pub fn by_chance(
    ours: &mut dyn Recorder,
    count: u64,
    seed: u64,
) -> (Outcomes, Option<(Case, String)>) {
    let mut rng = Rng::new(seed);
    let mut outcomes = Outcomes::default();
    for _ in 0..count {
        let case = recordings::case(&mut rng);
        let expected = expected(&case);
        if differs_from(&expected, ours, &case).is_some() {
            let small = smallest(case, ours);
            let why = differs(ours, &small).unwrap_or_default();
            return (outcomes, Some((small, why)));
        }
        outcomes.count(&case, &expected);
    }
    (outcomes, None)
}

/// The same lists and recordings, whole, to the run program. The first that it takes otherwise than the model, and what it printed.
pub fn by_program(
    program: &PairProgram,
    count: u64,
    seed: u64,
) -> (Counts, Option<(Case, Vec<u8>)>) {
    let mut rng = Rng::new(seed);
    let mut counts = Counts::default();
    let mut cases = (0..count).map(|_| recordings::case(&mut rng));
    let other = cases.find_map(|case| {
        let printed = program.answer(&case.list, &case.recording);
        let expected = model::recorded_runner(&case.list, &case.recording);
        (!counts.held(&printed, &expected)).then_some((case, printed))
    });
    (counts, other)
}
