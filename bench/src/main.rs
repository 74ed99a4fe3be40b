//! Measures everything and writes `docs/BENCHMARKS.md` and its plot. `bin/bench` calls it.

use std::path::Path;
use std::process::ExitCode;
use std::{env, fs, io};

use bench::cases::{Case, Kind};
use bench::report::Measured;
use bench::{count, others, plot, quick, report};

fn main() -> ExitCode {
    let words: Vec<String> = env::args().skip(1).collect();
    let words: Vec<&str> = words.iter().map(String::as_str).collect();
    match words[..] {
        [] => match measure() {
            Ok(()) => ExitCode::SUCCESS,
            Err(error) => {
                eprintln!("bench: {error}");
                ExitCode::FAILURE
            }
        },
        ["count", who, kind, stretch] => {
            let sum = stretch
                .parse()
                .ok()
                .and_then(|stretch| count::run(who, kind, stretch));
            println!("{sum:?}");
            ExitCode::from(u8::from(sum.is_none()))
        }
        _ => {
            eprintln!("usage: bench");
            ExitCode::from(2)
        }
    }
}

fn measure() -> io::Result<()> {
    let mut measured = Measured::default();
    for kind in Kind::ALL {
        println!("timing: {}", kind.name());
        let case = Case::new(kind);
        measured.quick.extend(quick::rows(&case));
        measured.others.extend(others::rows(&case));
    }
    measured
        .others
        .sort_by_key(|row| row.what.split(',').next().map(str::to_owned));
    measured.others.extend(others::drawer_rows());
    if count::installed() {
        measured.counted = count::contestants();
        for kind in Kind::ALL {
            println!("counting instructions: {}", kind.name());
            let counts = measured
                .counted
                .iter()
                .map(|who| count::instructions(who, kind));
            if let Some(counts) = counts.collect() {
                measured.instructions.push((kind, counts));
            }
        }
    } else {
        println!("valgrind is not installed: no instructions are counted");
    }
    let docs = Path::new(env!("CARGO_MANIFEST_DIR")).join("../docs");
    fs::write(docs.join("benchmarks.svg"), plot::svg(&measured.quick))?;
    fs::write(docs.join("BENCHMARKS.md"), report::page(&measured))?;
    println!("written: docs/BENCHMARKS.md, docs/benchmarks.svg");
    Ok(())
}
