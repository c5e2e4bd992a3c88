//! Copies the four files of the original into OUT_DIR, unchanged. They stand in the folder that MBOXALIND_ORIGINAL names
//! (a relative path counts from the repository's root); each has to have the checksum in original.sha256.

#[path = "build/sha256.rs"]
mod sha256;

use std::path::{Path, PathBuf};
use std::{env, fs};

const DEFAULT: &str = "../shared/docs/src";

/// The message is all that a person sees.
fn stop(message: &str) -> ! {
    println!("cargo::error={message}");
    std::process::exit(0)
}

fn read(path: &Path) -> Vec<u8> {
    println!("cargo::rerun-if-changed={}", path.display());
    fs::read(path).unwrap_or_else(|error| {
        stop(&format!(
            "{}: {error}. MBOXALIND_ORIGINAL has to name the folder of the original, which has src/compile/v1/ in it",
            path.display()
        ))
    })
}

/// The file's text, if its checksum is the one that stands beside its name.
fn checked(folder: &Path, name: &str, sum: &str) -> Vec<u8> {
    let path = folder.join(name);
    let text = read(&path);
    let found = sha256::hex(&text);
    if found != sum {
        stop(&format!("{} changed: {found}", path.display()));
    }
    text
}

fn copy(bytes: &[u8], to: &Path) {
    fs::write(to, bytes).expect("a copy in OUT_DIR");
    assert!(fs::read(to).expect("the copy") == bytes, "a copy differs");
}

fn main() {
    let manifest = PathBuf::from(env::var("CARGO_MANIFEST_DIR").expect("set by cargo"));
    let out = PathBuf::from(env::var("OUT_DIR").expect("set by cargo"));
    let root = manifest.join("../..");
    println!("cargo::rerun-if-env-changed=MBOXALIND_ORIGINAL");
    let folder = env::var("MBOXALIND_ORIGINAL").unwrap_or(DEFAULT.into());
    let folder = root.join(folder);

    let sums = read(&manifest.join("../original.sha256"));
    let sums = String::from_utf8(sums).expect("checksums");
    let mut modules = String::new();
    for line in sums.lines() {
        let (sum, name) = line.split_once("  ").expect("a checksum and a name");
        let file = Path::new(name).file_name().expect("a file");
        let to = out.join(file);
        copy(&checked(&folder, name, sum), &to);
        let stem = to.file_stem().expect("a name").to_string_lossy();
        let path = to.display().to_string();
        modules += &format!("#[allow(unused, clippy::all)]\n#[path = {path:?}]\nmod {stem};\n");
    }
    // slots.rs asks for this file under cfg(test).
    copy(
        &read(&manifest.join("src/window.rs")),
        &out.join("tests.rs"),
    );
    println!("cargo::rustc-cfg=test");
    println!("cargo::rustc-check-cfg=cfg(feature, values(\"emit\", \"tracing\"))");
    fs::write(out.join("modules.rs"), modules).expect("a list of modules");
}
