//! Proves the crates `viewer` and `ask`, has them compiled for the machine at hand, and links their archives.

use std::env;
use std::fs;
use std::path::{Path, PathBuf};
use std::process::Command;

fn main() {
    let here = PathBuf::from(env::var_os("CARGO_MANIFEST_DIR").expect("cargo names the package"));
    let out = PathBuf::from(env::var_os("OUT_DIR").expect("cargo gives a folder"));
    let root = here.parent().expect("the package stands in the repository");
    for each in ["crates.txt", "tools/native"] {
        println!("cargo:rerun-if-changed={}", root.join(each).display());
    }
    for folder in sources(&root.join("crates")) {
        println!("cargo:rerun-if-changed={}", folder.display());
    }
    println!("cargo:rustc-link-search=native={}", out.display());
    for name in ["viewer", "ask"] {
        build(&root.join("tools/native"), name, &out);
        println!("cargo:rustc-link-lib=static={name}");
    }
    // for the tests that call the archives from C
    println!("cargo:rustc-env=VIEWER_ARCHIVE_FOLDER={}", out.display());
}

/// Returns the folders of all crates in which sources lie. What rt makes beside them is none.
fn sources(crates: &Path) -> Vec<PathBuf> {
    let listed = fs::read_dir(crates).expect("the crates are there");
    listed
        .map(|each| each.expect("a crate can be read").path())
        .flat_map(|each| ["src", "specs", "proofs"].map(|part| each.join(part)))
        .filter(|each| each.is_dir())
        .collect()
}

fn build(native: &Path, name: &str, out: &Path) {
    let archive = out.join(format!("lib{name}.a"));
    let status = Command::new(native).arg(name).arg(archive).status();
    match status {
        Ok(status) if status.success() => {}
        Ok(status) => panic!("{} failed: {status}", native.display()),
        Err(error) => panic!("{} did not start: {error}", native.display()),
    }
}
