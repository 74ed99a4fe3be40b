//! Links the proved archive, `libstayharrow.a`, which `bin/archive` writes.

use std::path::{Path, PathBuf};
use std::{env, process};

const ARCHIVE: &str = "libstayharrow.a";

fn main() {
    println!("cargo::rerun-if-env-changed=STAYHARROW_ARCHIVE");
    let folder = folder();
    let archive = folder.join(ARCHIVE);
    println!("cargo::rerun-if-changed={}", archive.display());
    if !archive.is_file() {
        eprintln!("There is no archive at {}.", archive.display());
        eprintln!(
            "Run bin/archive at the root of the repository first, or name the folder that has"
        );
        eprintln!("{ARCHIVE} in the environment variable STAYHARROW_ARCHIVE.");
        process::exit(1);
    }
    println!("cargo::rustc-link-search=native={}", folder.display());
    println!("cargo::rustc-link-lib=static=stayharrow");
}

/// The folder that the environment names, else the one to which `bin/archive` writes.
fn folder() -> PathBuf {
    if let Some(named) = env::var_os("STAYHARROW_ARCHIVE") {
        return PathBuf::from(named);
    }
    let here = env::var_os("CARGO_MANIFEST_DIR").expect("cargo sets CARGO_MANIFEST_DIR");
    let root = Path::new(&here)
        .parent()
        .expect("the crate is in a folder of the repository");
    root.join("target/archive")
}
