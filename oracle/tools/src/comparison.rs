//! One comparison: scripts are offered, handed over in batches, judged and counted; a difference is made small.

use crate::judge::{judge, Against, Verdict};
use crate::ours::Ours;
use crate::shrink::shrink;
use crate::tally::Tally;

pub struct Found {
    pub script: Vec<u8>,
    pub small: Vec<u8>,
    pub why: String,
}

pub struct Comparison {
    pub ours: Box<dyn Ours>,
    pub against: Against,
    pub tally: Tally,
    pub found: Vec<Found>,
    waiting: Vec<Vec<u8>>,
}

/// More differences than these say nothing new.
const ENOUGH: usize = 5;

impl Comparison {
    pub fn new(ours: Box<dyn Ours>, against: Against) -> Self {
        Comparison {
            ours,
            against,
            tally: Tally::default(),
            found: Vec::new(),
            waiting: Vec::new(),
        }
    }

    /// False once enough differences were found.
    pub fn offer(&mut self, script: Vec<u8>) -> bool {
        self.waiting.push(script);
        if self.waiting.len() >= self.ours.batch() {
            self.settle();
        }
        self.found.len() < ENOUGH
    }

    /// Judge what is waiting.
    pub fn settle(&mut self) {
        let scripts = std::mem::take(&mut self.waiting);
        let answers = self.ours.answers(&scripts);
        for (script, printed) in scripts.into_iter().zip(answers) {
            let verdict = judge(&script, &printed, self.against);
            let frames = script.iter().filter(|b| **b == b'\n').count();
            self.tally.count(frames, &verdict);
            if let Verdict::Differs(_) = verdict {
                self.keep(script);
            }
        }
    }

    fn differs(&mut self, script: &[u8]) -> Option<String> {
        let printed = self.ours.answer(script);
        match judge(script, &printed, self.against) {
            Verdict::Differs(why) => Some(why),
            _ => None,
        }
    }

    fn keep(&mut self, script: Vec<u8>) {
        if self.found.len() >= ENOUGH {
            return;
        }
        let small = shrink(&script, &mut |s| self.differs(s).is_some());
        let why = self.differs(&small).unwrap_or_default();
        if self.found.iter().all(|f| f.small != small) {
            self.found.push(Found { script, small, why });
        }
    }
}
