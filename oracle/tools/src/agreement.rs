//! Lists from elsewhere (W-203), ours against the model: yes, no or the refusal. Besides, a fair placement's list gets a yes wherever our rules accept the
//! script, and what gets a yes prints, when it is run, what the script means.

use crate::campaign::Counts;
use crate::meaning::meaning;
use crate::ours::PairProgram;
use crate::rng::Rng;
use crate::shrink::shrink_lines;
use crate::suppliers::{self, Case};
use model::{Flaw, Plant, Refusal, Verdict, Why, LINES};
use std::collections::BTreeMap;
use std::fmt;

/// Who says yes or no, and runs lists.
pub trait Checker {
    /// As the exported function answers.
    fn agrees(&mut self, script: &[u8], list: &[u8]) -> u64;

    /// What a list prints beside a recording, as the run program does.
    fn prints(&mut self, list: &[u8], recording: &[u8]) -> Vec<u8>;

    fn name(&self) -> String;
}

/// The model, perhaps with a planted fault.
pub struct Modelled(pub Plant);

impl Checker for Modelled {
    fn agrees(&mut self, script: &[u8], list: &[u8]) -> u64 {
        model::agrees_with(script, list, self.0)
    }

    fn prints(&mut self, list: &[u8], recording: &[u8]) -> Vec<u8> {
        model::recorded_runner(list, recording)
    }

    fn name(&self) -> String {
        match self.0 {
            None => "the model".into(),
            Some(fault) => format!("the model with {fault:?}"),
        }
    }
}

type Answer = Result<Verdict, Refusal>;

fn number(answer: &Answer) -> u64 {
    match answer {
        Ok(verdict) => u64::from(*verdict == Verdict::Yes),
        Err(refusal) => refusal.answer(),
    }
}

/// Samples by chance, as many as any list takes.
pub struct Samples(Vec<u16>);

impl Samples {
    pub fn by_chance(rng: &mut Rng) -> Samples {
        Samples((0..LINES).map(|_| rng.draw() as u16).collect())
    }

    /// The first of them, as a recording.
    fn recording(&self, count: usize) -> Vec<u8> {
        let line = |value: &u16| format!("30{value:04x}\n").into_bytes();
        self.0.iter().take(count).flat_map(line).collect()
    }
}

/// "What it says yes to prints, when run, what the script means": what is wrong, if anything is.
fn misprinted(ours: &mut dyn Checker, case: &Case, samples: &Samples) -> Option<String> {
    let script = model::read_script(&case.script, None).ok()?;
    let (means, taken) = meaning(&script, &samples.0)?;
    let recording = samples.recording(taken + 2);
    let expected = format!("{means}a1{:08x}\n", recording.len() / 7 - taken);
    let printed = ours.prints(&case.list, &recording);
    (printed != expected.as_bytes()).then(|| {
        let printed = String::from_utf8_lossy(&printed).replace('\n', " / ");
        let expected = expected.replace('\n', " / ");
        format!("the list prints {printed}, the script means {expected}")
    })
}

/// "Every list that we write gets a yes", and that of any other fair placement: the answer isn't what it has to be.
fn unfair(case: &Case, answer: &Answer) -> bool {
    let refused = matches!(answer, Ok(Verdict::No(Why::Refused(_))));
    case.fair && *answer != Ok(Verdict::Yes) && !refused
}

fn differs(
    ours: &mut dyn Checker,
    case: &Case,
    answer: &Answer,
    samples: &Samples,
) -> Option<String> {
    let (found, expected) = (ours.agrees(&case.script, &case.list), number(answer));
    if found != expected {
        return Some(format!(
            "the model: {expected:#x} ({answer:?}); ours: {found:#x}"
        ));
    }
    if unfair(case, answer) {
        return Some(format!("a fair placement's list: {answer:?}"));
    }
    match answer {
        Ok(Verdict::Yes) => misprinted(ours, case, samples),
        _ => None,
    }
}

/// How many cases came out as the model says, by its answer.
#[derive(Default)]
pub struct Outcomes {
    cases: u64,
    pub lines: u64,
    labels: BTreeMap<String, u64>,
}

/// Why a no is a no, in the request's words.
fn reason(why: &Why) -> String {
    let flaw = match why {
        Why::Refused(r) => return format!("our rules refuse the script by {:2}", r.number),
        Why::Size(_) => "an address isn't below the size",
        Why::Line(_, flaw) => match flaw {
            Flaw::Title => "the title stands on one text only",
            Flaw::TooFew => "lines too few",
            Flaw::TooMany => "lines too many",
            Flaw::Opcode => "another opcode",
            Flaw::Operand => "another operand",
            Flaw::Held { .. } => "a slot is given while it is held",
            Flaw::Beyond => "there is no such slot",
            Flaw::Address => "not its allocation's own address",
            Flaw::NotNone => "not ffff",
            Flaw::Count => "another count of a drain",
            Flaw::Drained => "another address or order in a drain",
            Flaw::Stopped(number) => return format!("stopped by {number}"),
        },
    };
    flaw.into()
}

impl Outcomes {
    fn count(&mut self, case: &Case, answer: &Answer) {
        self.cases += 1;
        self.lines += case.list.iter().filter(|b| **b == b'\n').count() as u64;
        let unread = |r: &Refusal| match model::read_script(&case.script, None) {
            Err(_) => format!("refused by {}, the script", r.number),
            Ok(_) => format!("refused by {}, the list", r.number),
        };
        let label = match answer {
            Ok(Verdict::Yes) if case.fair => "yes, by a fair placement".into(),
            Ok(Verdict::Yes) => "yes".into(),
            Ok(Verdict::No(why)) => format!("no: {}", reason(why)),
            Err(refusal) => unread(refusal),
        };
        *self.labels.entry(label).or_default() += 1;
    }

    /// How many have a label that begins so.
    pub fn of(&self, label: &str) -> u64 {
        let labels = self.labels.iter().filter(|(l, _)| l.starts_with(label));
        labels.map(|(_, count)| count).sum()
    }

    pub fn counts(&self) -> Counts {
        let taken = self.of("yes");
        Counts {
            taken,
            refused: self.cases - taken,
            ..Counts::default()
        }
    }
}

impl fmt::Display for Outcomes {
    fn fmt(&self, f: &mut fmt::Formatter<'_>) -> fmt::Result {
        let (cases, lines) = (self.cases, self.lines);
        write!(f, "{cases} scripts with lists, {lines} lines of lists")?;
        for (label, count) in &self.labels {
            write!(f, "\n  {count:>10}  {label}")?;
        }
        Ok(())
    }
}

/// Fewer lines: of both texts at the same places, then of each.
fn smallest(mut case: Case, shows: &mut dyn FnMut(&Case) -> bool) -> Case {
    let mut size = case.script.iter().filter(|b| **b == b'\n').count();
    while size > 0 {
        let mut at = 0;
        while let Some(fewer) = without(&case, at, size) {
            match shows(&fewer) {
                true => case = fewer,
                false => at += size,
            }
        }
        size /= 2;
    }
    let mut fewer = case.clone();
    case.list = shrink_lines(&case.list, &mut |list| {
        fewer.list = list.to_vec();
        shows(&fewer)
    });
    let mut fewer = case.clone();
    case.script = shrink_lines(&case.script, &mut |script| {
        fewer.script = script.to_vec();
        shows(&fewer)
    });
    case
}

/// Without so many lines of both texts; none past the script's end.
fn without(case: &Case, at: usize, size: usize) -> Option<Case> {
    let less = |text: &[u8]| {
        let lines = text.split_inclusive(|b| *b == b'\n').enumerate();
        let left = lines.filter(|(i, _)| *i < at || *i >= at + size);
        left.flat_map(|(_, line)| line.to_vec()).collect()
    };
    let lines = case.script.split_inclusive(|b| *b == b'\n').count();
    (at < lines).then(|| Case {
        script: less(&case.script),
        list: less(&case.list),
        fair: false,
    })
}

/// A comparison: the first case that differs, made small, and how.
struct Judge<'a> {
    ours: &'a mut dyn Checker,
    samples: Samples,
    outcomes: Outcomes,
    found: Option<(Case, String)>,
}

impl Judge<'_> {
    fn differs(&mut self, case: &Case) -> Option<String> {
        let answer = model::verdict(&case.script, &case.list);
        differs(self.ours, case, &answer, &self.samples)
    }

    /// False once a difference was found.
    fn take(&mut self, case: Case) -> bool {
        let answer = model::verdict(&case.script, &case.list);
        let Some(why) = differs(self.ours, &case, &answer, &self.samples) else {
            self.outcomes.count(&case, &answer);
            return true;
        };
        // a part of a fair list needn't be fair
        let mut small = case.clone();
        small.fair = false;
        let small = smallest(small, &mut |case| self.differs(case).is_some());
        self.found = Some(match self.differs(&small) {
            Some(why) => (small, why),
            None => (case, why),
        });
        false
    }
}

/// What was asked, and the first difference.
pub type Found = (Outcomes, Option<(Case, String)>);

fn judged(
    ours: &mut dyn Checker,
    seed: u64,
    ask: impl FnOnce(&mut Rng, &mut dyn FnMut(Case) -> bool),
) -> Found {
    let mut rng = Rng::new(seed);
    let mut judge = Judge {
        ours,
        samples: Samples::by_chance(&mut rng),
        outcomes: Outcomes::default(),
        found: None,
    };
    ask(&mut rng, &mut |case| judge.take(case));
    (judge.outcomes, judge.found)
}

/// Cases by chance.
pub fn by_chance(ours: &mut dyn Checker, count: u64, seed: u64) -> Found {
    judged(ours, seed, |rng, take| {
        let _ = (0..count).all(|_| take(suppliers::case(rng)));
    })
}

/// Every short case.
pub fn every(ours: &mut dyn Checker, longest: usize) -> Found {
    judged(ours, 1, |_, take| {
        suppliers::every(longest, take);
    })
}

/// Cases by chance to the checking program. The first that it takes otherwise than the model, and what it printed.
pub fn by_program(
    program: &PairProgram,
    count: u64,
    seed: u64,
) -> (Counts, Option<(Case, Vec<u8>)>) {
    let mut rng = Rng::new(seed);
    let mut counts = Counts::default();
    let mut cases = (0..count).map(|_| suppliers::case(&mut rng));
    let other = cases.find_map(|case| {
        let printed = program.answer(&case.script, &case.list);
        let expected = model::checker(&case.script, &case.list);
        (!counts.held(&printed, &expected)).then_some((case, printed))
    });
    (counts, other)
}
