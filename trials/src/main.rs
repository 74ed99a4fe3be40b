//! `trials short`, `trials long [FACTOR]`, `trials case SUITE NUMBER`; `--seed SEED` behind any of them.

use std::io::{IsTerminal, Write};
use std::process::ExitCode;
use std::time::{Duration, Instant};

use trials::random::Random;
use trials::rig::{ARCHIVE, Difference, Entry, Rig};
use trials::suites::{SUITES, Suite};

const USAGE: &str = "usage: trials short | long [FACTOR] | case SUITE NUMBER   [--seed SEED]
  short   about a minute, the same cases each time
  long    FACTOR times as many cases by chance (20 unless given), and all that can be counted out
  case    one case again";
const SEED: u64 = 20_261_115;

fn main() -> ExitCode {
    let mut words: Vec<String> = std::env::args().skip(1).collect();
    let Some(seed) = take_seed(&mut words) else {
        return usage();
    };
    let words: Vec<&str> = words.iter().map(String::as_str).collect();
    match words[..] {
        ["short"] => run(seed, |suite| suite.short),
        ["long"] => long(seed, 20),
        ["long", factor] => match factor.parse() {
            Ok(factor) => long(seed, factor),
            Err(_) => usage(),
        },
        ["case", name, number] => {
            let suite = SUITES.iter().find(|suite| suite.name == name);
            match (suite, number.parse()) {
                (Some(suite), Ok(number)) => one(seed, suite, number),
                _ => usage(),
            }
        }
        _ => usage(),
    }
}

fn usage() -> ExitCode {
    eprintln!("{USAGE}");
    ExitCode::from(2)
}

/// The seed, taken out of the words; nothing where it is no number.
fn take_seed(words: &mut Vec<String>) -> Option<u64> {
    let Some(at) = words.iter().position(|word| word == "--seed") else {
        return Some(SEED);
    };
    let seed = words.get(at + 1)?.parse().ok()?;
    words.drain(at..at + 2);
    Some(seed)
}

fn long(seed: u64, factor: u64) -> ExitCode {
    run(seed, |suite| suite.all.unwrap_or(factor * suite.short))
}

fn one(seed: u64, suite: &Suite, number: u64) -> ExitCode {
    let mut rig = Rig::new(ARCHIVE);
    let mut random = Random::new(seed, suite.name, number);
    match (suite.run)(&mut rig, &mut random, number) {
        Ok(()) => {
            println!(
                "{} {number}: no difference in {} calls",
                suite.name,
                rig.calls()
            );
            ExitCode::SUCCESS
        }
        Err(difference) => differs(seed, suite, number, &difference),
    }
}

fn differs(seed: u64, suite: &Suite, number: u64, difference: &Difference) -> ExitCode {
    println!("\nA difference: {}", difference.0);
    println!(
        "again: trials case \"{}\" {number} --seed {seed}",
        suite.name
    );
    ExitCode::FAILURE
}

fn run(seed: u64, cases_of: impl Fn(&Suite) -> u64) -> ExitCode {
    let begun = Instant::now();
    let mut rig = Rig::new(ARCHIVE);
    println!("seed {seed}");
    for suite in &SUITES {
        let (cases, calls, start) = (cases_of(suite), rig.calls(), Instant::now());
        let mut progress = Progress::new(suite.name, cases);
        for number in 0..cases {
            let mut random = Random::new(seed, suite.name, number);
            if let Err(difference) = (suite.run)(&mut rig, &mut random, number) {
                progress.end();
                return differs(seed, suite, number, &difference);
            }
            progress.at(number + 1);
        }
        progress.end();
        let (calls, seconds) = (rig.calls() - calls, start.elapsed().as_secs_f64());
        println!(
            "{:<18} {cases:>10} cases {calls:>11} calls {seconds:>7.1} s  {:>9.0} calls/s  {}",
            suite.name,
            calls as f64 / seconds,
            suite.about
        );
    }
    let met = print_tally(&rig);
    let seconds = begun.elapsed().as_secs_f64();
    println!(
        "{} calls compared, no difference, {seconds:.1} s",
        rig.calls()
    );
    if met {
        ExitCode::SUCCESS
    } else {
        ExitCode::FAILURE
    }
}

/// A line that is written over itself, on a terminal every tenth of a second, else every minute.
struct Progress {
    name: &'static str,
    cases: u64,
    begun: Instant,
    last: Instant,
    every: Duration,
    terminal: bool,
}

impl Progress {
    fn new(name: &'static str, cases: u64) -> Progress {
        let terminal = std::io::stdout().is_terminal();
        let every = if terminal {
            Duration::from_millis(100)
        } else {
            Duration::from_secs(60)
        };
        let begun = Instant::now();
        Progress {
            name,
            cases,
            begun,
            last: begun,
            every,
            terminal,
        }
    }

    fn at(&mut self, done: u64) {
        if !done.is_multiple_of(64) || self.last.elapsed() < self.every {
            return;
        }
        self.last = Instant::now();
        let spent = self.begun.elapsed().as_secs_f64();
        let left = spent / done as f64 * (self.cases - done) as f64;
        let line = format!(
            "{:<18} {done:>10} of {} cases, {spent:.0} s, {left:.0} s to go",
            self.name, self.cases
        );
        if self.terminal {
            print!("\r\x1b[K{line}");
            let _ = std::io::stdout().flush();
        } else {
            println!("{line}");
        }
    }

    fn end(&self) {
        if self.terminal {
            print!("\r\x1b[K");
        }
    }
}

/// What each entry point said how often; false where a refusal that its rule names was never met.
fn print_tally(rig: &Rig) -> bool {
    let mut met = true;
    println!("\n{:<11} {:>12}  refusals", "", "answers");
    for entry in Entry::ALL {
        let tally = &rig.tally[entry as usize];
        print!("{:<11} {:>12} ", entry.name(), tally[0]);
        for &number in entry.refusals() {
            print!(" {number}: {}", tally[number as usize]);
            met &= tally[number as usize] > 0;
        }
        met &= tally[0] > 0;
        println!();
    }
    println!(
        "foreign summaries that gave a place: {}; looks that ended in the shared drawer: {}, refused there: {}",
        rig.foreign_places, rig.shared, rig.shared_refusals
    );
    met &= rig.foreign_places > 0 && rig.shared > 0 && rig.shared_refusals > 0;
    if !met {
        println!("An outcome that the rules name was never met: the trials are too few.");
    }
    met
}
