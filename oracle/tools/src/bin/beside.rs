//! Scripts through the old allocator and ours, side by side. See oracle/README.md for the options.

use oracle::beside::{page, sentence, table, Beside, Counts};
use oracle::ours::{Model, Ours, Program};
use std::io::Read;
use std::process::ExitCode;

#[derive(Default)]
struct Plan {
    program: Option<String>,
    /// what to call the program
    called: Option<String>,
    html: Option<String>,
    whole: bool,
    brief: bool,
    files: Vec<String>,
}

fn plan() -> Option<Plan> {
    let mut plan = Plan::default();
    let mut words = std::env::args().skip(1);
    while let Some(word) = words.next() {
        match word.as_str() {
            "--program" => plan.program = Some(words.next()?),
            "--called" => plan.called = Some(words.next()?),
            "--html" => plan.html = Some(words.next()?),
            "--whole" => plan.whole = true,
            "--brief" => plan.brief = true,
            option if option.starts_with("--") => return None,
            _ => plan.files.push(word),
        }
    }
    (!plan.files.is_empty()).then_some(plan)
}

fn read(file: &str) -> std::io::Result<Vec<u8>> {
    if file != "-" {
        return std::fs::read(file);
    }
    let mut text = Vec::new();
    std::io::stdin().lock().read_to_end(&mut text)?;
    Ok(text)
}

fn compare(plan: &Plan, ours: &mut dyn Ours) -> std::io::Result<Counts> {
    let mut counts = Counts::default();
    let mut all = Vec::new();
    for file in &plan.files {
        let script =
            read(file).map_err(|e| std::io::Error::new(e.kind(), format!("{file}: {e}")))?;
        let beside = Beside::new(file, &script, ours);
        counts.count(&beside);
        println!("{file}: {}", sentence(&beside));
        if !plan.brief && !beside.rows.is_empty() {
            println!("{}", table(&beside, plan.whole));
        }
        if plan.html.is_some() {
            all.push(beside);
        }
    }
    println!("{counts}");
    if let Some(out) = &plan.html {
        std::fs::write(out, page(&all, &counts))?;
    }
    Ok(counts)
}

fn main() -> ExitCode {
    let Some(plan) = plan() else {
        eprintln!("beside [--program \"PATH ARGS\" [--called NAME]] [--html OUT] [--whole | --brief] FILE..");
        return ExitCode::from(2);
    };
    let mut ours: Box<dyn Ours> = match &plan.program {
        Some(command) => Box::new(Program::new(command)),
        None => Box::new(Model(None)),
    };
    let name = plan.called.clone().unwrap_or_else(|| ours.name());
    println!("old: rune 0.14.2; ours: {name}");
    match compare(&plan, ours.as_mut()) {
        Err(e) => {
            eprintln!("beside: {e}");
            ExitCode::from(2)
        }
        Ok(counts) if counts.faults > 0 => ExitCode::from(3),
        Ok(counts) => ExitCode::from(u8::from(counts.differ > 0)),
    }
}
