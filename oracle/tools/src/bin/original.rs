//! Reads a script and prints the original's list, or the line that it refused with its own words.

use model::Placement;
use oracle::args::Args;
use rune::{drive, Driven, Stop};
use std::io::{Read, Write};
use std::process::ExitCode;

fn input(path: Option<&str>) -> Vec<u8> {
    match path {
        Some(path) => std::fs::read(path).expect("the script"),
        None => {
            let mut text = Vec::new();
            let stdin = std::io::stdin().lock().read_to_end(&mut text);
            stdin.expect("the script");
            text
        }
    }
}

fn analysis(driven: &Driven) {
    if let Some(line) = driven.head_above_length {
        eprintln!("line {line}: an insert met H > L");
    }
    if let Some(line) = driven.root_freed_late {
        eprintln!("line {line}: a root Scope handle is freed after 05");
    }
    if let Some(s) = &driven.shared {
        eprintln!(
            "line {}: handles {} and {} share slot {}",
            s.line, s.older, s.newer, s.address
        );
    }
}

fn main() -> ExitCode {
    let args = Args::new();
    let script = match model::read_script(&input(args.first()), None) {
        Ok(script) => script,
        Err(r) => {
            eprintln!("line {}: no script, {}", r.line, r.number);
            return ExitCode::from(2);
        }
    };
    if script.placement == Placement::Lowest {
        eprintln!(
            "the title is left out: the original knows edition 1 only; its frames count from 0"
        );
    }
    let frames = script.frames;
    let refused = model::play(Placement::ByHead, &frames, None).1.err();
    let end = refused.map_or(frames.len(), |r| r.line + 1);
    let driven = drive(&frames[..end]);
    analysis(&driven);
    if let Some(r) = refused {
        let (line, number) = (r.line, r.number);
        eprintln!("line {line}: our rules refuse by {number}; what comes after it isn't asked");
    }
    std::io::stdout()
        .write_all(&driven.list)
        .expect("the answer");
    match driven.stop {
        None => ExitCode::SUCCESS,
        Some((line, Stop::Refused(words))) => {
            eprintln!("line {line}: the original refuses: {words}");
            ExitCode::from(1)
        }
        Some((line, Stop::Untold(why))) => {
            eprintln!("line {line}: can't be said to the original: {why}");
            ExitCode::from(1)
        }
    }
}
