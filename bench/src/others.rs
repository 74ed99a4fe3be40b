//! The other entry points: build, check, fill, plain ask, append and find.

use stayharrow::{MAX_DRAWER, MAX_RECORDS, RecordBuf, entry};

use crate::cases::{Case, ENTRIES, Kind};
use crate::measure::{Contestant, Timed, interleaved};
use crate::peers::PEERS;
use crate::quick::{PROVED, RIVAL};
use crate::rival;

/// The times of one entry point.
#[derive(Clone, Debug)]
pub struct Row {
    /// What was done.
    pub what: String,
    /// The unit of its times.
    pub unit: &'static str,
    /// The proved code first, then the rival, then the peers where they have such a thing.
    pub times: Vec<Timed>,
}

/// What is timed on every column.
pub fn rows(case: &Case) -> Vec<Row> {
    vec![build(case), check(case), fill(case), ask(case)]
}

fn of(what: &str, kind: Kind) -> String {
    format!("{what}, {}", kind.name())
}

fn build(case: &Case) -> Row {
    let room = || (vec![0; ENTRIES], vec![0; case.record.as_bytes().len()]);
    let ((mut work, mut out), (mut work2, mut out2)) = (room(), room());
    let mut contestants = vec![
        Contestant::new(PROVED, || {
            entry::build(&case.counts, &mut work, &mut out).bits()
        }),
        Contestant::new(RIVAL, || rival::build(&case.counts, &mut work2, &mut out2)),
    ];
    for &(name, make) in PEERS {
        contestants.push(Contestant::new(name, move || {
            make(&case.counts).bytes() as u64
        }));
    }
    Row {
        what: of("build", case.kind),
        unit: "ns an entry",
        times: interleaved(contestants, ENTRIES),
    }
}

fn check(case: &Case) -> Row {
    let record = case.record.as_bytes();
    let contestants = vec![
        Contestant::new(PROVED, || entry::check(record).bits()),
        Contestant::new(RIVAL, || rival::check(record)),
    ];
    Row {
        what: of("check", case.kind),
        unit: "ns an entry",
        times: interleaved(contestants, ENTRIES),
    }
}

fn fill(case: &Case) -> Row {
    let record = case.record.as_bytes();
    let (mut summary, mut summary2) = (case.summary.clone(), case.summary.clone());
    let contestants = vec![
        Contestant::new(PROVED, || entry::fill(record, &mut summary).bits()),
        Contestant::new(RIVAL, || rival::fill(record, &mut summary2)),
    ];
    Row {
        what: of("fill, with its check", case.kind),
        unit: "ns an entry",
        times: interleaved(contestants, ENTRIES),
    }
}

fn ask(case: &Case) -> Row {
    let record = case.record.as_bytes();
    let asks = &case.asks(1_000)[..20];
    let sum = |ask: &dyn Fn(usize, usize) -> u64| asks.iter().map(|&(i, j)| ask(i, j)).sum();
    let contestants = vec![
        Contestant::new(PROVED, || sum(&|i, j| entry::ask(record, i, j).bits())),
        Contestant::new(RIVAL, || sum(&|i, j| rival::ask(record, i, j))),
    ];
    Row {
        what: of("plain ask, stretch 1,000", case.kind),
        unit: "ns an ask",
        times: interleaved(contestants, asks.len()),
    }
}

/// What is timed on a drawer: append behind 63 small records, find of the first and the last of 64.
pub fn drawer_rows() -> Vec<Row> {
    let case = Case::new(Kind::Random);
    let counts = &case.counts[..1_000];
    let record = RecordBuf::build(counts).expect("it is short");
    let records = record.as_bytes();
    let drawer = records.repeat(MAX_RECORDS);
    let used = drawer.len() - records.len();
    vec![
        append("append of 1,000 entries, first record", counts, &drawer, 0),
        append(
            "append of 1,000 entries, behind 63 records",
            counts,
            &drawer,
            used,
        ),
        find("find, record 0 of 64", &drawer, 0),
        find("find, record 63 of 64", &drawer, MAX_RECORDS - 1),
    ]
}

/// How often a short call is made in a round.
const TIMES: usize = 1_000;

fn append(what: &str, counts: &[u32], drawer: &[u8], used: usize) -> Row {
    let buffer = || {
        let mut buffer = drawer.to_vec();
        buffer.resize(MAX_DRAWER, 0);
        buffer
    };
    let (mut one, mut two) = (buffer(), buffer());
    let (mut work, mut work2) = (vec![0; counts.len()], vec![0; counts.len()]);
    let times = TIMES / 10;
    let contestants = vec![
        Contestant::new(PROVED, || {
            let append = |_| entry::append(&mut one, used, counts, &mut work).bits();
            (0..times).map(append).sum()
        }),
        Contestant::new(RIVAL, || {
            let append = |_| rival::append(&mut two, used, counts, &mut work2);
            (0..times).map(append).sum()
        }),
    ];
    Row {
        what: what.into(),
        unit: "ns a call",
        times: interleaved(contestants, times),
    }
}

fn find(what: &str, drawer: &[u8], r: usize) -> Row {
    let place = || std::hint::black_box(r);
    let contestants = vec![
        Contestant::new(PROVED, || {
            (0..TIMES)
                .map(|_| entry::find(drawer, place()).bits())
                .fold(0, u64::wrapping_add)
        }),
        Contestant::new(RIVAL, || {
            (0..TIMES)
                .map(|_| rival::find(drawer, place()))
                .fold(0, u64::wrapping_add)
        }),
    ];
    Row {
        what: what.into(),
        unit: "ns a call",
        times: interleaved(contestants, TIMES),
    }
}
