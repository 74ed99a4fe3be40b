//! Times, taken in turn in one process.

use std::hint::black_box;
use std::time::Instant;

/// The rounds of a measurement: each contestant runs once a round.
pub const ROUNDS: usize = 25;

/// One contestant: it does its work once and gives back something that depends on it.
pub struct Contestant<'a> {
    /// Its name.
    pub name: &'static str,
    /// The work.
    pub work: Box<dyn FnMut() -> u64 + 'a>,
}

impl<'a> Contestant<'a> {
    /// A contestant that does this work.
    pub fn new(name: &'static str, work: impl FnMut() -> u64 + 'a) -> Contestant<'a> {
        let work = Box::new(work);
        Contestant { name, work }
    }
}

/// The least and the median time of a contestant, in nanoseconds a unit of its work.
#[derive(Clone, Debug)]
pub struct Timed {
    /// The contestant's name.
    pub name: &'static str,
    /// The least.
    pub least: f64,
    /// The median.
    pub median: f64,
}

/// Runs all contestants in turn, `ROUNDS` times; each run has so many units of work.
pub fn interleaved(mut contestants: Vec<Contestant<'_>>, units: usize) -> Vec<Timed> {
    let mut times = vec![Vec::with_capacity(ROUNDS); contestants.len()];
    for contestant in &mut contestants {
        black_box((contestant.work)());
    }
    for _ in 0..ROUNDS {
        for (contestant, times) in contestants.iter_mut().zip(&mut times) {
            let begun = Instant::now();
            black_box((contestant.work)());
            times.push(begun.elapsed().as_nanos() as f64 / units as f64);
        }
    }
    let timed = contestants
        .iter()
        .zip(&mut times)
        .map(|(contestant, times)| {
            times.sort_by(f64::total_cmp);
            Timed {
                name: contestant.name,
                least: times[0],
                median: times[ROUNDS / 2],
            }
        });
    timed.collect()
}
