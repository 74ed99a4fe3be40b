//! Instructions an ask, by cachegrind: a run with asks less the same run without them.

use std::env;
use std::process::Command;

use crate::cases::{Case, Kind, STRETCHES};
use crate::peers::PEERS;
use crate::quick::{self, PROVED, RIVAL};

/// The asks that are counted.
const COUNTED: usize = 2_000;

/// The contestants, by name.
pub fn contestants() -> Vec<&'static str> {
    let peers = PEERS.iter().map(|&(name, _)| name);
    [PROVED, RIVAL].into_iter().chain(peers).collect()
}

/// What runs under cachegrind: all that is needed for any stretch, and the asks of the one that is named, if any.
pub fn run(who: &str, kind: &str, stretch: usize) -> Option<u64> {
    let kind = Kind::ALL.into_iter().find(|one| one.name() == kind)?;
    let case = Case::new(kind);
    let asks = STRETCHES.map(|stretch| case.asks(stretch));
    let asks = match STRETCHES.iter().position(|&one| one == stretch) {
        Some(k) => &asks[k][..COUNTED],
        None => &[],
    };
    match who {
        PROVED => Some(quick::proved(&case, asks)),
        RIVAL => Some(quick::rival(&case, asks)),
        _ => {
            let &(_, make) = PEERS.iter().find(|(name, _)| *name == who)?;
            Some(make(&case.counts).sum(asks))
        }
    }
}

/// The instructions an ask of each stretch; nothing where valgrind is not installed.
pub fn instructions(who: &str, kind: Kind) -> Option<[f64; 3]> {
    let without = counted(who, kind, 0)?;
    let mut each = [0.0; 3];
    for (each, stretch) in each.iter_mut().zip(STRETCHES) {
        let with = counted(who, kind, stretch)?;
        *each = (with - without) as f64 / COUNTED as f64;
    }
    Some(each)
}

/// Whether valgrind is installed.
pub fn installed() -> bool {
    Command::new("valgrind").arg("--version").output().is_ok()
}

fn counted(who: &str, kind: Kind, stretch: usize) -> Option<u64> {
    let output = Command::new("valgrind")
        .args([
            "--tool=cachegrind",
            "--cache-sim=no",
            "--cachegrind-out-file=/dev/null",
        ])
        .arg(env::current_exe().ok()?)
        .args(["count", who, kind.name(), &stretch.to_string()])
        .output()
        .ok()?;
    let said = String::from_utf8_lossy(&output.stderr).into_owned();
    let line = said.lines().find(|line| line.contains("refs:"))?;
    let digits: String = line
        .rsplit(':')
        .next()?
        .chars()
        .filter(char::is_ascii_digit)
        .collect();
    digits.parse().ok()
}
