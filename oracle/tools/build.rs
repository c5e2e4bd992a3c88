//! With the feature `linked`: finds libbare.a, which `host/archive --bare` writes beside libmboxalind.a.

use std::env;
use std::path::PathBuf;

fn main() {
    println!("cargo::rerun-if-env-changed=MBOXALIND_ARCHIVE");
    if env::var_os("CARGO_FEATURE_LINKED").is_none() {
        return;
    }
    // As in host/build.rs: a relative path counts from host/.
    let host =
        PathBuf::from(env::var_os("CARGO_MANIFEST_DIR").expect("cargo sets it")).join("../../host");
    let archive = match env::var_os("MBOXALIND_ARCHIVE") {
        Some(path) => host.join(path),
        None => host.join("../target/staticlib/libmboxalind.a"),
    };
    let bare = archive.with_file_name("libbare.a");
    println!("cargo::rerun-if-changed={}", bare.display());
    if !bare.is_file() {
        let path = bare.display();
        println!("cargo::error={path} is missing; host/archive --bare writes it");
        return;
    }
    let folder = bare.parent().expect("a file is in a folder");
    println!("cargo::rustc-link-search=native={}", folder.display());
}
