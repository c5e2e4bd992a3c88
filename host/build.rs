//! Links the archive of our functions, target/staticlib/libmboxalind.a, which host/archive writes.

use std::env;
use std::path::{Path, PathBuf};

/// The message is all that a person sees.
fn stop(message: &str) -> ! {
    println!("cargo::error={message}");
    std::process::exit(0)
}

fn archive() -> PathBuf {
    let here = PathBuf::from(env::var_os("CARGO_MANIFEST_DIR").expect("cargo sets it"));
    match env::var_os("MBOXALIND_ARCHIVE") {
        Some(path) => here.join(path),
        None => here.join("../target/staticlib/libmboxalind.a"),
    }
}

/// The names that an archive defines: its first member is a table of a count, as many places, then the names.
fn names(bytes: &[u8]) -> Option<Vec<&str>> {
    let table = bytes.strip_prefix(b"!<arch>\n")?;
    let (head, rest) = table.split_at_checked(60)?;
    if !head.starts_with(b"/ ") {
        return None;
    }
    let length: usize = std::str::from_utf8(&head[48..58])
        .ok()?
        .trim()
        .parse()
        .ok()?;
    let (count, rest) = rest.get(..length)?.split_at_checked(4)?;
    let count = u32::from_be_bytes(count.try_into().ok()?) as usize;
    let names = std::str::from_utf8(rest.get(4 * count..)?).ok()?;
    Some(names.split('\0').take(count).collect())
}

/// What its first object is for, in cargo's word: byte 18 of an ELF file tells the machine.
fn machine(bytes: &[u8]) -> &'static str {
    let object = bytes.windows(4).position(|four| four == b"\x7fELF");
    match object.and_then(|at| bytes.get(at + 18)) {
        Some(62) => "x86_64",
        Some(183) => "aarch64",
        _ => "another machine",
    }
}

fn read(path: &Path) -> Vec<u8> {
    std::fs::read(path).unwrap_or_else(|e| {
        stop(&format!(
            "{}: {e}. host/archive writes it; that needs rt, the command of the Rattle kit. MBOXALIND_ARCHIVE names another one",
            path.display()
        ))
    })
}

fn main() {
    println!("cargo::rustc-check-cfg=cfg(translate, agrees)");
    println!("cargo::rerun-if-env-changed=MBOXALIND_ARCHIVE");
    let path = archive();
    println!("cargo::rerun-if-changed={}", path.display());
    let bytes = read(&path);
    let Some(names) = names(&bytes) else {
        stop(&format!(
            "{} is no archive with a table of names",
            path.display()
        ));
    };
    let (target, made_for) = (env::var("TARGET").expect("cargo sets it"), machine(&bytes));
    if !target.starts_with(made_for) || !target.contains("linux") {
        let path = path.display();
        stop(&format!("{path} is for {made_for} on Linux, not for {target}: host/README.md says what another machine needs"));
    }
    for name in ["run", "read_recording", "run_recorded"] {
        if !names.contains(&name) {
            stop(&format!("{} has no function {name}", path.display()));
        }
    }
    for name in ["translate", "agrees"] {
        match names.contains(&name) {
            true => println!("cargo::rustc-cfg={name}"),
            false => println!(
                "cargo::warning=the archive has no function {name}: the host is built without it"
            ),
        }
    }
    let folder = path.parent().expect("a file is in a folder");
    println!("cargo::rustc-link-search=native={}", folder.display());
    println!("cargo::rustc-link-lib=static=mboxalind");
}
