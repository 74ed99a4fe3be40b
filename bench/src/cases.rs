//! The columns, and the stretches that are asked about.

use stayharrow::{RecordBuf, SUMMARY_LEN, entry};
use trials::columns::{Profile, column};
use trials::random::Random;

/// The entries of each column.
pub const ENTRIES: usize = 32_768;
/// The lengths of the stretches.
pub const STRETCHES: [usize; 3] = [10, 1_000, 20_000];
/// The asks of a round.
pub const ASKS: usize = 10_000;

const SEED: u64 = 32_768;
/// The length of a run of openings, where a column has long ones.
const RUN: usize = 4_096;

/// A column that is timed.
#[derive(Clone, Copy, Debug, PartialEq, Eq)]
pub enum Kind {
    /// Counts by chance.
    Random,
    /// Each above the one before.
    Rising,
    /// Each below the one before.
    Falling,
    /// Rising, with one in fifty out of place.
    NearlySorted,
    /// Small entries, each below the last, and behind each of them a falling run up to the next: 4,095 openings stand
    /// between its closing and the run's first. Asks begin just before a run.
    Runs,
    /// Falling, with noise.
    FallingNoise,
    /// 0, n, n - 1, ..; half of the asks begin at entry 0.
    ZeroFalling,
}

impl Kind {
    /// All of them; the last three are the worst cases.
    pub const ALL: [Kind; 7] = [
        Kind::Random,
        Kind::Rising,
        Kind::Falling,
        Kind::NearlySorted,
        Kind::Runs,
        Kind::FallingNoise,
        Kind::ZeroFalling,
    ];

    /// Its name.
    pub fn name(self) -> &'static str {
        match self {
            Kind::Random => "random",
            Kind::Rising => "rising",
            Kind::Falling => "falling",
            Kind::NearlySorted => "nearly sorted",
            Kind::Runs => "runs of openings",
            Kind::FallingNoise => "falling, noise",
            Kind::ZeroFalling => "0, n, n-1, ..",
        }
    }

    fn counts(self, random: &mut Random) -> Vec<u32> {
        match self {
            Kind::Random => column(random, Profile::Random, ENTRIES),
            Kind::Rising => column(random, Profile::Rising, ENTRIES),
            Kind::Falling => column(random, Profile::Falling, ENTRIES),
            Kind::NearlySorted => nearly_sorted(random),
            Kind::Runs => (0..ENTRIES).map(in_runs).collect(),
            Kind::FallingNoise => column(random, Profile::FallingNoise, ENTRIES),
            Kind::ZeroFalling => column(random, Profile::ZeroThenFalling, ENTRIES),
        }
    }

    fn ask(self, random: &mut Random, stretch: usize) -> (usize, usize) {
        let most = ENTRIES - stretch;
        let i = match self {
            Kind::Runs => (RUN * random.from_to(1, ENTRIES / RUN - 1) - random.below(8)).min(most),
            Kind::ZeroFalling if random.once_in(2) => 0,
            _ => random.from_to(0, most),
        };
        (i, i + stretch - 1)
    }
}

fn in_runs(k: usize) -> u32 {
    let count = if k.is_multiple_of(RUN) {
        (ENTRIES - k) / RUN
    } else {
        ENTRIES - k % RUN
    };
    count as u32
}

fn nearly_sorted(random: &mut Random) -> Vec<u32> {
    let mut counts: Vec<u32> = (0..ENTRIES as u32).collect();
    for _ in 0..ENTRIES / 100 {
        counts.swap(random.below(ENTRIES), random.below(ENTRIES));
    }
    counts
}

/// A column with its record and its summary.
#[derive(Clone, Debug)]
pub struct Case {
    /// What it is.
    pub kind: Kind,
    /// The counts.
    pub counts: Vec<u32>,
    /// The record.
    pub record: RecordBuf,
    /// The summary filled from it.
    pub summary: Vec<u16>,
}

impl Case {
    /// The case of this kind, the same each time.
    pub fn new(kind: Kind) -> Case {
        let mut random = Random::new(SEED, kind.name(), 0);
        let counts = kind.counts(&mut random);
        let record = RecordBuf::build(&counts).expect("it has 32,768 entries");
        let mut summary = vec![0; SUMMARY_LEN];
        let filled = entry::fill(record.as_bytes(), &mut summary).result();
        filled.expect("a record that was just built");
        Case {
            kind,
            counts,
            record,
            summary,
        }
    }

    /// The asks of a stretch, the same each time.
    pub fn asks(&self, stretch: usize) -> Vec<(usize, usize)> {
        let mut random = Random::new(SEED, self.kind.name(), stretch as u64);
        let ask = |_| self.kind.ask(&mut random, stretch);
        (0..ASKS).map(ask).collect()
    }
}
