//! The C example is compiled against the header and the archive, as a host written in C would do it, and run.

use std::env;
use std::fmt::Write;
use std::path::{Path, PathBuf};
use std::process::Command;

use trials::rules::{self, Column};

/// What it should write, by the rules.
fn expected() -> String {
    let first = Column::new(vec![4, 2, 4, 2, 9]);
    let second = Column::new(vec![100, 7, 7, 350, 12, 3, 90]);
    let drawer = [&first.record[..], &second.record[..]].concat();
    let mut lines = vec!["record".to_string()];
    for byte in &first.record {
        write!(lines[0], " {byte:02X}").expect("a string takes all");
    }
    let cheapest = |column: &Column, j| {
        let place = rules::leftmost_smallest(&column.counts, 0, j);
        format!("cheapest of 0..{j}: {place}")
    };
    lines.push(cheapest(&first, 4));
    lines.push(format!("drawer of {} bytes", drawer.len()));
    lines.extend((1..7).map(|j| cheapest(&second, j)));
    let missing = rules::find(&drawer, 2).expect_err("there are two");
    lines.push(format!("record 2: refused {missing}"));
    lines.join("\n") + "\n"
}

fn root() -> &'static Path {
    let here = Path::new(env!("CARGO_MANIFEST_DIR"));
    here.parent()
        .expect("the crate is in a folder of the repository")
}

fn archive() -> PathBuf {
    let folder = option_env!("STAYHARROW_ARCHIVE").map(PathBuf::from);
    folder
        .unwrap_or_else(|| root().join("target/archive"))
        .join("libstayharrow.a")
}

fn compiled(language: &str, name: &str) -> PathBuf {
    let program = Path::new(env!("CARGO_TARGET_TMPDIR")).join(name);
    let compiler = env::var("CC").unwrap_or_else(|_| "cc".into());
    let output = Command::new(&compiler)
        .args(["-x", language, "-Wall", "-Wextra", "-Werror", "-O2", "-I"])
        .arg(root().join("include"))
        .arg(root().join("examples/cheapest.c"))
        .args(["-x", "none"])
        .arg(archive())
        .arg("-o")
        .arg(&program)
        .output()
        .unwrap_or_else(|error| panic!("{compiler}: {error}"));
    let said = String::from_utf8_lossy(&output.stderr);
    assert!(
        output.status.success(),
        "{compiler} refused the example:\n{said}"
    );
    program
}

fn runs(program: &Path) {
    let output = Command::new(program).output().expect("it can be run");
    assert!(output.status.success());
    assert_eq!(String::from_utf8_lossy(&output.stdout), expected());
}

#[test]
fn as_c() {
    runs(&compiled("c", "cheapest-c"));
}

#[test]
fn as_cpp() {
    runs(&compiled("c++", "cheapest-cpp"));
}
