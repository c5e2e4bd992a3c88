//! Scripts and texts to `translate`: of edition 1 against the original and the model, of edition 2 and damaged ones against the model.

use crate::plan::Plan;
use crate::table::Table;
use crate::{shown, who};
use model::Frame;
use oracle::campaign::called;
use oracle::comparison::{Comparison, Found};
use oracle::known::known;
use oracle::{damage, editions, every, phases, random};
use std::time::Instant;

type Every = fn(&mut Comparison, &[Frame], usize);

/// A comparison, and the table it is counted in.
struct Campaign<'a> {
    comparison: Comparison,
    table: &'a mut Table,
    first: usize,
    who: String,
}

impl<'a> Campaign<'a> {
    fn new(plan: &Plan, table: &'a mut Table) -> Self {
        let ours = who::translator(plan);
        println!("ours: {}; seed {}", ours.name(), plan.seed);
        Campaign {
            who: called(&ours.name()),
            comparison: Comparison::new(ours, plan.against),
            first: table.rows(),
            table,
        }
    }

    /// Asks, prints what was counted, and has it as a row.
    fn ask(&mut self, what: &str, ask: impl FnOnce(&mut Comparison)) {
        let begun = Instant::now();
        ask(&mut self.comparison);
        let tally = std::mem::take(&mut self.comparison.tally);
        println!("{what}, {} s\n{tally}", begun.elapsed().as_secs());
        let what = format!("{}: {what}", self.who);
        self.table.row(what, (tally.frames, "lines"), tally.counts);
    }

    /// Every script of up to so many frames; what else is to be said of them stands behind.
    fn every(&mut self, every: Every, alphabet: &[Frame], longest: usize, behind: &str) {
        let letters = alphabet.len();
        let what =
            format!("every script of up to {longest} frames, {letters} to choose from{behind}");
        self.ask(&what, |comparison| every(comparison, alphabet, longest));
    }

    /// All that was asked, in one more row.
    fn sum(&mut self, what: &str) {
        self.table
            .sum(&format!("{}: **{what}**", self.who), self.first);
    }

    fn report(&mut self) {
        let unknown = self.comparison.found.iter().filter(|found| told(found));
        self.table.unknown += unknown.count();
    }
}

/// Prints a difference; is it on no list?
fn told(difference: &Found) -> bool {
    let known = known(&difference.small);
    let label = match known {
        Some(why) => format!("known ({why})"),
        None => "DIFFERENCE".into(),
    };
    println!("{label}: {}", shown(&difference.small));
    println!("  {}", difference.why);
    println!("  from a script of {} bytes", difference.script.len());
    known.is_none()
}

const SEGMENTS: &str = ": runs about the segments";
const LIMITS: &str = "sessions at the limits of slots and handles, and the longest list";

/// Of edition 1.
pub fn scripts(plan: &Plan, table: &mut Table) {
    let mut campaign = Campaign::new(plan, table);
    let shorts = [
        (every::alphabet(), plan.every, ""),
        (every::wide_alphabet(), plan.wide, SEGMENTS),
        (every::needs_alphabet(), plan.needs, ": needs"),
        (every::samples_alphabet(), plan.samples, ": samples"),
    ];
    for (alphabet, longest, behind) in shorts {
        campaign.every(phases::every_script, &alphabet, longest, behind);
    }
    campaign.ask(LIMITS, phases::sessions_of_sizes);
    let sources: [(&str, random::Source, u64); 3] = [
        ("", random::script, plan.random),
        (", with needs", random::with_needs, plan.random_needs),
        (", with samples", random::with_samples, plan.random_samples),
    ];
    for (behind, source, count) in sources {
        campaign.ask(&format!("scripts by chance{behind}"), |comparison| {
            let profiles = phases::random_scripts(comparison, source, count, plan.seed);
            println!("{profiles:?}");
        });
    }
    campaign.sum("all scripts of edition 1");
    campaign.report();
}

/// Of stored answers, which the gate replays.
pub fn stored(plan: &Plan, table: &mut Table) {
    let mut campaign = Campaign::new(plan, table);
    campaign.ask("the stored scripts", phases::stored_scripts);
    campaign.report();
}

/// With the title before them. The wide scripts have a frame less: there are more slots to look at.
fn second_edition(plan: &Plan, table: &mut Table) {
    let mut campaign = Campaign::new(plan, table);
    println!("edition 2: held against the model, and against the sets of slots; the original knows edition 1 only");
    let wide = plan.editions.saturating_sub(1);
    let shorts = [
        (every::alphabet(), plan.editions, ""),
        (every::wide_alphabet(), wide, SEGMENTS),
    ];
    campaign.who += ", edition 2";
    for (alphabet, longest, behind) in shorts {
        campaign.every(phases::every_tight_script, &alphabet, longest, behind);
    }
    campaign.ask(LIMITS, phases::sessions_of_edition_2);
    campaign.ask("scripts of all kinds by chance", |comparison| {
        let profiles = phases::random_tight_scripts(comparison, plan.random_editions, plan.seed);
        println!("{profiles:?}");
    });
    campaign.sum("all scripts");
    campaign.report();
}

/// The same frames in either edition: what they print, and which of them are refused.
fn both_editions(plan: &Plan, table: &mut Table) {
    let mut ours = who::translator(plan);
    let (count, seed) = (plan.random_editions, plan.seed);
    let (tally, differs) = editions::by_chance(ours.as_mut(), count, seed);
    let what = "the same frames by chance in both editions, which print the same";
    println!("{what}\n{tally}");
    if let Some((frames, why)) = &differs {
        println!("DIFFERENCE: {}\n  {why}", shown(&Frame::script(frames)));
    }
    let what = format!("{}: {what}", called(&ours.name()));
    table.row_until(
        what,
        (tally.loads, "loads"),
        tally.counts(),
        differs.is_some(),
    );
}

/// Edition 2, and both.
pub fn editions(plan: &Plan, table: &mut Table) {
    second_edition(plan, table);
    both_editions(plan, table);
}

/// Texts that needn't be scripts.
pub fn texts(plan: &Plan, table: &mut Table) {
    if plan.model_alone() {
        return;
    }
    let mut campaign = Campaign::new(plan, table);
    let what = format!(
        "every text of up to {} lines, {} to choose from, most of them refused or malformed",
        plan.texts,
        damage::LINES.len()
    );
    campaign.ask(&what, |comparison| {
        phases::every_text(comparison, plan.texts)
    });
    campaign.ask("damaged texts by chance", |comparison| {
        phases::damaged_texts(comparison, plan.damaged, plan.seed)
    });
    campaign.report();
}
