//! What was measured on, and with what.

use std::fs;
use std::process::Command;

/// What a program prints; nothing, where it can't be asked.
fn printed(program: &str, words: &[&str]) -> String {
    let output = Command::new(program).args(words).output();
    let text = output.map(|o| String::from_utf8_lossy(&o.stdout).into_owned());
    text.unwrap_or_default()
}

fn said(program: &str, word: &str) -> String {
    match printed(program, &[word]).lines().next() {
        Some(line) => line.to_string(),
        None => format!("{program}, which could not be asked"),
    }
}

fn processor() -> String {
    let told = printed("lscpu", &[]);
    let name = told.lines().find_map(|l| l.strip_prefix("Model name:"));
    name.map_or("unknown".into(), |name| name.trim().into())
}

/// How our archives were made.
fn made() -> &'static str {
    match cfg!(target_arch = "x86_64") {
        true => "`rt lib`, linked as it is",
        false => {
            "its LLVM bitcode, compiled for this machine by `oracle/here`; what ships is for x86-64"
        }
    }
}

/// How many others ran in the last minute.
pub fn load() -> String {
    let load = fs::read_to_string("/proc/loadavg").unwrap_or_default();
    load.split(' ').next().unwrap_or_default().into()
}

/// Lines of a page.
pub fn lines() -> Vec<String> {
    let cores = std::thread::available_parallelism().map_or(0, |n| n.get());
    vec![
        format!(
            "- machine: {}, {cores} cores, {}",
            processor(),
            std::env::consts::ARCH
        ),
        format!(
            "- original: {}, cargo's release profile (opt-level 3, no LTO), target-cpu not set",
            said("rustc", "--version")
        ),
        format!("- ours: {}, {}", said("rt", "version"), made()),
    ]
}
