//! Plants each fault in turn, in the model or in the original's answers, and says who finds it. Fails if one isn't found.

use model::{Fault, Placement, FAULTS};
use oracle::agreement;
use oracle::bare;
use oracle::comparison::Comparison;
use oracle::every::{alphabet, needs_alphabet, samples_alphabet, wide_alphabet};
use oracle::judge::{Against, OriginalFault, ORIGINAL_FAULTS};
use oracle::limits::{self, Case};
use oracle::ours::Model;
use oracle::recorded::{self, Modelled};
use oracle::{phases, random};
use std::process::ExitCode;

const SEED: u64 = 1;

fn shown(text: &[u8]) -> String {
    let frames = text.iter().filter(|b| **b == b'\n').count();
    match frames > 30 || text.len() > 300 {
        true => format!("a script of {frames} lines, {} bytes", text.len()),
        false => String::from_utf8_lossy(text)
            .trim_end()
            .replace('\n', " / "),
    }
}

/// The first difference, made small.
fn found(fault: Option<Fault>, against: Against) -> Option<String> {
    let mut comparison = Comparison::new(Box::new(Model(fault)), against);
    let phases: [fn(&mut Comparison); 7] = [
        |c| phases::every_script(c, &alphabet(), 4),
        |c| phases::every_script(c, &needs_alphabet(), 4),
        |c| phases::every_script(c, &samples_alphabet(), 3),
        phases::sessions_of_needs,
        phases::sessions_of_sizes,
        |c| drop(phases::random_scripts(c, random::script, 4000, SEED)),
        |c| drop(phases::random_scripts(c, random::with_needs, 4000, SEED)),
    ];
    for phase in phases {
        if comparison.found.is_empty() {
            phase(&mut comparison);
        }
    }
    let by_model: [fn(&mut Comparison); 6] = [
        |c| phases::every_text(c, 3),
        |c| phases::every_tight_script(c, &alphabet(), 3),
        |c| phases::every_tight_script(c, &wide_alphabet(), 3),
        phases::sessions_of_edition_2,
        |c| drop(phases::random_tight_scripts(c, 2000, SEED)),
        |c| phases::damaged_texts(c, 2000, SEED),
    ];
    for phase in by_model {
        if comparison.found.is_empty() && against.model {
            phase(&mut comparison);
        }
    }
    let shortest = comparison.found.iter().min_by_key(|f| f.small.len())?;
    Some(format!("{}; {}", shown(&shortest.small), shortest.why))
}

fn whom(original: bool) -> Against {
    Against {
        original,
        model: !original,
        plant: None,
    }
}

/// Against the original in edition 1, and against the model in edition 2.
fn bare_slots(fault: Fault) -> Option<String> {
    let rows = |placement| move |c: &[bare::Call]| bare::model_rows(c, placement, Some(fault));
    let (_, first) = phases::bare_runs(300, SEED, &mut rows(Placement::ByHead));
    if let Some((calls, _)) = first {
        return Some(format!("{} calls", calls.len()));
    }
    let second = Placement::Lowest;
    let (_, differs) = phases::bare_by_model(300, SEED, second, &mut rows(second));
    differs.map(|(_, call)| format!("edition 2, call {call}"))
}

/// Scripts and lists from elsewhere by chance.
fn suppliers(fault: Fault) -> Option<String> {
    let mut ours = agreement::Modelled(Some(fault));
    let (case, why) = agreement::by_chance(&mut ours, 3000, SEED).1?;
    Some(match case.script.len() + case.list.len() > 300 {
        true => format!("a script of {} bytes; {why}", case.script.len()),
        false => format!("{case}; {why}"),
    })
}

/// Each program about the limits of a text: those that take one otherwise.
fn programs(fault: Fault) -> Option<String> {
    let found = limits::PROGRAMS.iter().filter_map(|which| {
        let mut ask = |case: &Case| limits::by_model(*which, case, Some(fault));
        let (case, _) = limits::first_other(*which, 1, SEED, &mut ask).1?;
        Some(format!("{which:?}, {}", case.what))
    });
    let found: Vec<String> = found.collect();
    (!found.is_empty()).then(|| found.join("; "))
}

fn recordings(fault: Fault) -> Option<String> {
    let (case, why) = recorded::by_chance(&mut Modelled(Some(fault)), 3000, SEED).1?;
    let case = match case.list.len() > 300 {
        true => format!("a list of {} bytes", case.list.len()),
        false => case.to_string(),
    };
    Some(format!("{case}; {why}"))
}

type Finder = (&'static str, fn(Fault) -> Option<String>);

/// Who may find a fault of the model.
const FINDERS: [Finder; 6] = [
    ("scripts against the original", |fault| {
        found(Some(fault), whom(true))
    }),
    ("scripts and texts against the model", |fault| {
        found(Some(fault), whom(false))
    }),
    ("bare slots", bare_slots),
    ("recordings", recordings),
    ("lists from elsewhere", suppliers),
    ("programs at the limits", programs),
];

/// Which of them find it.
fn model_fault(name: &str, fault: Fault) -> [bool; FINDERS.len()] {
    println!("{name}");
    FINDERS.map(|(finder, find)| {
        let found = find(fault);
        println!("  {finder}: {}", found.as_deref().unwrap_or("nothing"));
        found.is_some()
    })
}

/// A fault in what the original answered.
fn original_fault(name: &str, fault: OriginalFault) -> bool {
    let against = Against {
        plant: Some(fault),
        ..whom(true)
    };
    let found = found(None, against);
    println!("{name}\n  {}", found.as_deref().unwrap_or("nothing"));
    found.is_some()
}

/// The last line, which docs/DIFFERENCES.md has.
fn main() -> ExitCode {
    let rows: Vec<[bool; FINDERS.len()]> = FAULTS.map(|(n, f)| model_fault(n, f)).into();
    let theirs = ORIGINAL_FAULTS.map(|(name, fault)| original_fault(name, fault));
    let planted = rows.len() + theirs.len();
    let of_model = rows.iter().filter(|row| row.contains(&true)).count();
    let found = of_model + theirs.iter().filter(|found| **found).count();
    let by = |(i, finder): (usize, &Finder)| {
        let count = rows.iter().filter(|row| row[i]).count();
        format!("{count} by {}", finder.0)
    };
    let by: Vec<String> = FINDERS.iter().enumerate().map(by).collect();
    println!(
        "Planted faults (`plants`): {planted}, {} of them in the original's answers and {} in the model; {found} are found. Those in the model: {}.",
        theirs.len(),
        rows.len(),
        by.join(", ")
    );
    match found == planted {
        true => ExitCode::SUCCESS,
        false => ExitCode::from(1),
    }
}
