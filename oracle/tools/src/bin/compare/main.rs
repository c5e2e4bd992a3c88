//! Ours against the original and the model, at scale. See oracle/README.md for the options.

mod others;
mod plan;
mod scripts;
mod table;
mod who;

use oracle::args::Args;
use plan::Plan;
use std::process::ExitCode;
use table::Table;

fn shown(text: &[u8]) -> String {
    let text = String::from_utf8_lossy(text);
    text.trim_end().replace('\n', " / ")
}

type Part = (&'static str, fn(&Plan, &mut Table));

/// By the names that `--parts` takes.
const PARTS: [Part; 9] = [
    ("stored", scripts::stored),
    ("scripts", scripts::scripts),
    ("editions", scripts::editions),
    ("texts", scripts::texts),
    ("bare", others::bare),
    ("lists", others::lists),
    ("recordings", others::recordings),
    ("suppliers", others::suppliers),
    ("limits", others::at_the_limits),
];

/// Those that are named, or all.
fn parts(args: &Args) -> Vec<Part> {
    let Some(names) = args.value("--parts") else {
        return PARTS.to_vec();
    };
    let part = |name| *PARTS.iter().find(|part| part.0 == name).expect("a part");
    names.split(',').map(part).collect()
}

fn main() -> ExitCode {
    let args = Args::new();
    let (plan, mut table) = (Plan::new(&args), Table::new(args.flag("--sums")));
    for (_, part) in parts(&args) {
        part(&plan, &mut table);
    }
    if let Some(file) = args.value("--table") {
        table.write(file);
    }
    match table.unknown {
        0 => {
            println!("no difference that isn't known");
            ExitCode::SUCCESS
        }
        n => {
            println!("{n} differences");
            ExitCode::from(1)
        }
    }
}
