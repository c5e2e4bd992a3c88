//! What isn't a script: bare slots, lists that are run, recordings, lists from elsewhere, texts at the limits.

use crate::plan::Plan;
use crate::table::Table;
use crate::{shown, who};
use model::Placement;
use oracle::agreement;
use oracle::bare::{model_rows, Player};
use oracle::campaign::called;
use oracle::limits::{self, Which};
use oracle::ours::PairProgram;
use oracle::{phases, recorded};

/// Our slots, linked; by the model too, which goes on where the original is not compared.
#[cfg(feature = "linked")]
fn bare_linked(plan: &Plan, table: &mut Table) {
    use oracle::campaign::Counts;
    use oracle::linked_slots::rows;
    for (edition, place) in [(1, Placement::ByHead), (2, Placement::Lowest)] {
        let player: Player = &mut |c| rows(c, place);
        let (tally, differs) = phases::bare_by_model(plan.bare, plan.seed, place, player);
        let calls = tally.went.calls;
        let what = format!("bare slots: runs by chance, edition {edition}, by the model");
        println!("{what}\n{calls} calls equal");
        if let Some((calls, i)) = &differs {
            println!("DIFFERENCE at call {i} of {calls:?}");
        }
        let counts = Counts {
            taken: tally.runs,
            ..Counts::default()
        };
        table.row_until(what, (calls, "calls"), counts, differs.is_some());
    }
    bare_against_original("bare slots", plan, table, &mut |c| {
        rows(c, Placement::ByHead)
    });
}

#[cfg(not(feature = "linked"))]
fn bare_linked(_: &Plan, _: &mut Table) {}

fn bare_against_original(whose: &str, plan: &Plan, table: &mut Table, player: Player) {
    let every = phases::bare_every(plan.bare_every, player);
    let by_chance = phases::bare_runs(plan.bare, plan.seed, player);
    let calls = plan.bare_every;
    let found = [
        (format!("every run of {calls} calls"), every),
        ("runs by chance".into(), by_chance),
    ];
    for (which, (tally, differs)) in found {
        let what = format!("{whose}: {which}, edition 1");
        println!("{what}, against the original\n{tally}");
        if let Some((calls, end)) = &differs {
            println!("DIFFERENCE: {calls:?}\n  {end:?}");
        }
        let all = (tally.went.calls, "calls");
        table.row_until(what, all, tally.counts(), differs.is_some());
    }
}

pub fn bare(plan: &Plan, table: &mut Table) {
    match plan.linked {
        true => bare_linked(plan, table),
        false => bare_against_original("the model's bare slots", plan, table, &mut |c| {
            model_rows(c, Placement::ByHead, plan.plant)
        }),
    }
}

/// What the model prints, and ours.
fn tell(what: &str, expected: &[u8], printed: &[u8]) {
    println!("DIFFERENCE: {what}");
    println!("  the model prints {}", shown(expected));
    println!("  ours prints {}", shown(printed));
}

/// Lists to the run program.
pub fn lists(plan: &Plan, table: &mut Table) {
    let Some(mut runner) = who::runner(plan) else {
        return;
    };
    let (counts, differs) = phases::lists_run(runner.as_mut(), plan.lists, plan.seed);
    println!("{} lists to {}", plan.lists, runner.name());
    if let Some(list) = &differs {
        let printed = runner.answer(list);
        tell(
            &format!("the list {}", shown(list)),
            &model::runner(list),
            &printed,
        );
    }
    let what = format!("{}: lists by chance, some damaged", called(&runner.name()));
    table.row_until(what, (0, ""), counts, differs.is_some());
}

/// Recordings and lists to the functions; lists and recordings to the run program.
pub fn recordings(plan: &Plan, table: &mut Table) {
    if let Some(mut ours) = who::recorder(plan) {
        let (outcomes, differs) = recorded::by_chance(ours.as_mut(), plan.recordings, plan.seed);
        println!("{}\n{outcomes}", ours.name());
        if let Some((case, why)) = &differs {
            println!("DIFFERENCE: {case}\n  {why}");
        }
        let what = "recordings by chance in parts, then a list beside them";
        let what = format!("{}: {what}", called(&ours.name()));
        let all = (outcomes.parts, "parts");
        table.row_until(what, all, outcomes.counts(), differs.is_some());
    }
    if let Some(command) = &plan.runner {
        let program = PairProgram::new(command);
        let (counts, differs) = recorded::by_program(&program, plan.recordings, plan.seed);
        println!("{} lists with recordings to {command}", plan.recordings);
        if let Some((case, printed)) = &differs {
            let expected = model::recorded_runner(&case.list, &case.recording);
            tell(&case.to_string(), &expected, printed);
        }
        let what = format!("{}: lists beside recordings by chance", called(command));
        table.row_until(what, (0, ""), counts, differs.is_some());
    }
}

const ELSEWHERE: &str = "scripts by chance with lists from elsewhere, most of them damaged once";

/// Lists from elsewhere: the linked function, the checking program, or the model by itself or with a fault.
pub fn suppliers(plan: &Plan, table: &mut Table) {
    if let Some(mut ours) = who::checker(plan) {
        let longest = plan.suppliers_every;
        let found = [
            (
                format!("every script of up to {longest} frames with every short list"),
                agreement::every(ours.as_mut(), longest),
            ),
            (
                ELSEWHERE.into(),
                agreement::by_chance(ours.as_mut(), plan.suppliers, plan.seed),
            ),
        ];
        for (which, (outcomes, differs)) in found {
            println!("{which}, by {}\n{outcomes}", ours.name());
            if let Some((case, why)) = &differs {
                println!("DIFFERENCE: {case}\n  {why}");
            }
            let what = format!("{}: {which}", called(&ours.name()));
            let all = (outcomes.lines, "lines");
            table.row_until(what, all, outcomes.counts(), differs.is_some());
        }
    }
    if let Some(command) = &plan.checker {
        let program = PairProgram::new(command);
        let (counts, differs) = agreement::by_program(&program, plan.suppliers, plan.seed);
        println!("{} scripts with lists to {command}", plan.suppliers);
        if let Some((case, printed)) = &differs {
            let expected = model::checker(&case.script, &case.list);
            tell(&case.to_string(), &expected, printed);
        }
        let what = format!("{}: {ELSEWHERE}", called(command));
        table.row_until(what, (0, ""), counts, differs.is_some());
    }
}

/// Texts about the limits of what a program reads, each round with other values.
pub fn at_the_limits(plan: &Plan, table: &mut Table) {
    for which in limits::PROGRAMS {
        let Some((name, mut ask)) = who::at_the_limits(plan, which) else {
            continue;
        };
        let (counts, other) = limits::first_other(which, plan.limits, plan.seed, &mut ask);
        println!(
            "texts about the limits of a text, {which:?}: {}",
            counts.asked()
        );
        if let Some((case, printed)) = &other {
            let expected = limits::by_model(which, case, None);
            tell(&case.what, &expected, printed);
        }
        let beside = match which {
            Which::Beside => ", beside recordings",
            _ => "",
        };
        let what = format!(
            "{}: texts as long as a program reads, and longer{beside}",
            called(&name)
        );
        table.row_until(what, (0, ""), counts, other.is_some());
    }
}
