//! How many were compared, and how many not, by reason.

use crate::campaign::Counts;
use crate::judge::Verdict;
use std::collections::BTreeMap;
use std::fmt;

#[derive(Default)]
pub struct Tally {
    pub offered: u64,
    pub frames: u64,
    pub longest: usize,
    pub counts: Counts,
    labels: BTreeMap<String, u64>,
}

/// The column of the table that a verdict is counted in.
fn column<'a>(counts: &'a mut Counts, verdict: &Verdict) -> &'a mut u64 {
    match verdict {
        Verdict::Equal => &mut counts.equal,
        Verdict::BothRefuse(_) => &mut counts.both_refuse,
        Verdict::Ours(_) => &mut counts.ours,
        Verdict::Outside(_) => &mut counts.outside,
        Verdict::Modelled(None) => &mut counts.taken,
        Verdict::Modelled(_) | Verdict::Text(_) => &mut counts.refused,
        Verdict::Differs(_) => &mut counts.different,
    }
}

impl Tally {
    pub fn count(&mut self, frames: usize, verdict: &Verdict) {
        self.offered += 1;
        self.frames += frames as u64;
        self.longest = self.longest.max(frames);
        *column(&mut self.counts, verdict) += 1;
        let label = match verdict {
            Verdict::Equal => "accepted, all answers equal".to_string(),
            Verdict::BothRefuse(n) => format!("refused by {n:2}, by the original too"),
            Verdict::Ours(n) => format!("refused by {n:2}, a rule of ours"),
            Verdict::Text(n) => format!("refused by {n:2}, a text"),
            Verdict::Outside(why) => format!("outside the domain: {why:?}"),
            Verdict::Modelled(None) => "accepted, by the model".to_string(),
            Verdict::Modelled(Some(n)) => format!("refused by {n:2}, by the model"),
            Verdict::Differs(_) => "DIFFERENT".to_string(),
        };
        *self.labels.entry(label).or_default() += 1;
    }
}

impl fmt::Display for Tally {
    fn fmt(&self, f: &mut fmt::Formatter<'_>) -> fmt::Result {
        let Tally {
            offered,
            frames,
            longest,
            labels,
            ..
        } = self;
        write!(f, "{offered} scripts, {frames} frames, longest {longest}")?;
        for (label, count) in labels {
            write!(f, "\n  {count:>10}  {label}")?;
        }
        Ok(())
    }
}
