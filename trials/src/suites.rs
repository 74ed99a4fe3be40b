//! The trials: every small case, and cases by chance for everything larger.

use crate::columns;
use crate::random::Random;
use crate::rig::{Bytes, Rig, Trial};
use crate::rules::{self, Body, Column};

/// A family of cases, each run by its number alone.
pub struct Suite {
    /// Its name.
    pub name: &'static str,
    /// What it tries.
    pub about: &'static str,
    /// The number of cases of a short run.
    pub short: u64,
    /// The number of cases that there are, where they can be counted out.
    pub all: Option<u64>,
    /// Runs one of them.
    pub run: fn(&mut Rig, &mut Random, u64) -> Trial,
}

/// All suites, in the order in which they run.
pub const SUITES: [Suite; 10] = [
    Suite {
        name: "every column",
        about: "all columns of few entries, every ask",
        short: columns_up_to(6),
        all: Some(columns_up_to(8)),
        run: every_column,
    },
    Suite {
        name: "every body",
        about: "all bodies of few bytes, every ask",
        short: bodies_up_to(8),
        all: Some(bodies_up_to(12)),
        run: every_body,
    },
    Suite {
        name: "every head",
        about: "all marks and all n, with bytes missing and to spare",
        short: 65_536 * 6,
        all: Some(65_536 * 6),
        run: every_head,
    },
    Suite {
        name: "every string",
        about: "all strings of up to three bytes",
        short: 1 + 256 + 65_536,
        all: Some(1 + 256 + 65_536 + 16_777_216),
        run: every_string,
    },
    Suite {
        name: "columns",
        about: "columns of every profile, from build to window",
        short: 60_000,
        all: None,
        run: some_column,
    },
    Suite {
        name: "long columns",
        about: "the same near 32,768 entries",
        short: 150,
        all: None,
        run: long_column,
    },
    Suite {
        name: "damaged records",
        about: "records with bits, heads and lengths changed",
        short: 300_000,
        all: None,
        run: damaged,
    },
    Suite {
        name: "foreign summaries",
        about: "quick asks over summaries changed, exchanged or made up",
        short: 150_000,
        all: None,
        run: foreign,
    },
    Suite {
        name: "drawers",
        about: "find and which, at the edges",
        short: 300_000,
        all: None,
        run: drawers,
    },
    Suite {
        name: "appends",
        about: "appends, with refusals that compete",
        short: 300_000,
        all: None,
        run: appends,
    },
];

const fn columns_up_to(entries: u32) -> u64 {
    let (mut sum, mut n) = (1, 1);
    while n <= entries {
        sum += (n as u64).pow(n);
        n += 1;
    }
    sum
}

const fn bodies_up_to(entries: u32) -> u64 {
    let (mut sum, mut n) = (1, 1);
    while n <= entries {
        sum += 256u64.pow(n.div_ceil(4));
        n += 1;
    }
    sum
}

/// The column of this number: by length, and in each length all counts below it, which give every order with every tie.
fn every_column(rig: &mut Rig, _: &mut Random, case: u64) -> Trial {
    let (mut n, mut rest) = (0u64, case);
    while rest >= n.pow(n as u32).max(1) {
        rest -= n.pow(n as u32).max(1);
        n += 1;
    }
    let counts = (0..n).map(|_| {
        let count = rest % n;
        rest /= n;
        count as u32
    });
    let column = Column::new(counts.collect());
    let n = n as usize;
    rig.build(&column, &vec![0xABCD; n], &vec![0xEE; column.record.len()])?;
    let bytes = Bytes::new(column.record);
    rig.check(&bytes)?;
    let summary = bytes
        .summary
        .as_ref()
        .expect("a column's record passes the check");
    if case.is_multiple_of(16) {
        rig.fill(&bytes, &[7; 900])?;
    }
    rig.stand_in(&bytes, &vec![9; n + 1])?;
    for j in 0..=n {
        for i in 0..=j + 1 {
            rig.ask(&bytes, Some(&column.counts), i, j)?;
            rig.quick_ask(&bytes, summary, i, j)?;
        }
    }
    if n <= 4 {
        for all in 0..(n + 1).pow(4) {
            let place = |k: u32| all / (n + 1).pow(k) % (n + 1);
            rig.window(&bytes, place(0), place(1))?;
            rig.window_ask(&bytes, [place(0), place(1), place(2), place(3)])?;
        }
    }
    Ok(())
}

/// The body of this number: by n, and for each n all bytes, unused bits and all.
fn every_body(rig: &mut Rig, random: &mut Random, case: u64) -> Trial {
    let (mut n, mut rest) = (0u32, case);
    while rest >= 256u64.pow(n.div_ceil(4)) {
        rest -= 256u64.pow(n.div_ceil(4));
        n += 1;
    }
    let size = n.div_ceil(4) as usize;
    let n = n as usize;
    let mut bytes = vec![0x52, 0x4D, n as u8, 0];
    bytes.extend_from_slice(&rest.to_le_bytes()[..size]);
    let bytes = Bytes::new(bytes);
    rig.check(&bytes)?;
    if bytes.checked.is_err() {
        rig.ask(&bytes, None, random.below(n + 1), random.below(n + 1))?;
        let places = [(); 4].map(|()| random.below(n + 1));
        return match random.below(4) {
            0 => rig.stand_in(&bytes, &vec![1; n]),
            1 => rig.fill(&bytes, &[1; 896]),
            2 => rig.window(&bytes, places[0], places[1]),
            _ => rig.window_ask(&bytes, places),
        };
    }
    rig.fill(&bytes, &[0; 897])?;
    for room in n.saturating_sub(1)..=n + 1 {
        rig.stand_in(&bytes, &vec![5; room])?;
    }
    let summary = bytes.summary.as_ref().expect("it passed");
    for j in 0..=n {
        for i in 0..=j + 1 {
            rig.ask(&bytes, None, i, j)?;
            rig.quick_ask(&bytes, summary, i, j)?;
            rig.window(&bytes, i, j)?;
        }
    }
    Ok(())
}

/// The head of this number, and bytes behind it.
fn every_head(rig: &mut Rig, random: &mut Random, case: u64) -> Trial {
    let [low, high] = ((case / 6) as u16).to_le_bytes();
    let n = low as usize + 256 * high as usize;
    let mut bytes = match case % 6 {
        0 => vec![low, high, 5, 0, 0x33, 0x01],
        1 => vec![0x52, 0x4D, low, high],
        _ => [&[0x52, 0x4D, low, high][..], &bodies(random, n)].concat(),
    };
    match case % 6 {
        3 => bytes.truncate(rules::length(n) - 1),
        4 => bytes.push(random.word() as u8),
        5 => bytes.truncate(random.from_to(4, rules::length(n))),
        _ => {}
    }
    let bytes = Bytes {
        checked: rules::check(&bytes),
        bytes,
        summary: None,
    };
    rig.check(&bytes)?;
    rig.find(&bytes.bytes, random.below(2))
}

/// The first bytes of 33.. are balanced throughout, so that only the end of a body decides.
fn bodies(random: &mut Random, n: usize) -> Vec<u8> {
    let mut body = vec![0x33; n.div_ceil(4)];
    let unused = 8 * body.len() - 2 * n;
    if let Some(last) = body.last_mut() {
        *last &= 0xFF >> unused;
        if random.once_in(8) {
            *last ^= 1 << random.below(8);
        }
    }
    body
}

/// The string of this number: by length, and in each length all bytes.
fn every_string(rig: &mut Rig, random: &mut Random, case: u64) -> Trial {
    let (mut length, mut rest) = (0u32, case);
    while rest >= 256u64.pow(length) {
        rest -= 256u64.pow(length);
        length += 1;
    }
    let bytes = Bytes::new(rest.to_le_bytes()[..length as usize].to_vec());
    rig.check(&bytes)?;
    rig.find(&bytes.bytes, random.below(3))?;
    rig.append(&bytes.bytes, bytes.bytes.len(), &Column::new(vec![1]), &[2])
}

/// A length near the one that is needed, most often enough.
fn near(random: &mut Random, need: usize) -> usize {
    match random.below(16) {
        0 => 0,
        1 => need.saturating_sub(1),
        2 => random.below(need + 1),
        3..8 => need,
        8..12 => need + 1,
        _ => need + random.below(40),
    }
}

/// A place to ask about, most often inside.
fn place(random: &mut Random, n: usize) -> usize {
    match random.below(64) {
        0 => n,
        1 => n + 1,
        2 => usize::MAX,
        3 => 65_536 + random.below(n + 1),
        4 => 0,
        5 => n.saturating_sub(1),
        6 => n / 2,
        _ => random.below(n.max(1)),
    }
}

/// Two places, most often in order.
fn stretch(random: &mut Random, n: usize) -> (usize, usize) {
    let (i, j) = (place(random, n), place(random, n));
    if random.once_in(32) {
        return (i, j);
    }
    if random.once_in(3) {
        let near = i.saturating_add(random.below(20));
        return (i, near.min(n.saturating_sub(1)).max(i));
    }
    (i.min(j), i.max(j))
}

/// Two places for a window, most often about the ones that are asked.
fn around(random: &mut Random, n: usize, (i, j): (usize, usize)) -> (usize, usize) {
    if random.once_in(4) {
        return stretch(random, n);
    }
    let first = i.saturating_sub(random.scaled(n + 1));
    let last = j.saturating_add(random.scaled(n + 1));
    (first, last.min(n.saturating_sub(1)))
}

fn bytes(random: &mut Random, length: usize) -> Vec<u8> {
    let mut bytes = Vec::with_capacity(length + 8);
    while bytes.len() < length {
        bytes.extend_from_slice(&random.word().to_le_bytes());
    }
    bytes.truncate(length);
    bytes
}

fn numbers(random: &mut Random, length: usize) -> Vec<u16> {
    let pairs = bytes(random, 2 * length);
    let number = |pair: &[u8]| u16::from_le_bytes([pair[0], pair[1]]);
    pairs.chunks_exact(2).map(number).collect()
}

fn counts(random: &mut Random, length: usize) -> Vec<u32> {
    (0..length).map(|_| random.word() as u32).collect()
}

/// A column's way from build to window, in memory of a length near the one that is needed.
fn journey(rig: &mut Rig, random: &mut Random, counts_of: Vec<u32>, asks: usize) -> Trial {
    let column = Column::new(counts_of);
    let n = column.counts.len();
    let (work, out) = (near(random, n), near(random, rules::length(n)));
    rig.build(&column, &numbers(random, work), &bytes(random, out))?;
    if n > rules::MOST {
        return Ok(());
    }
    rig.build(&column, &vec![1; n], &vec![0xFF; column.record.len()])?;
    let built = Bytes::new(column.record);
    rig.check(&built)?;
    let room = near(random, rules::SLOTS);
    rig.fill(&built, &numbers(random, room))?;
    let room = near(random, n);
    rig.stand_in(&built, &counts(random, room))?;
    if n < 2000 || random.once_in(8) {
        let body = built.checked.as_ref().expect("a column's record passes");
        let again = rules::record(&rules::shape(&body.stand_in()));
        assert_eq!(
            again, built.bytes,
            "the rules themselves differ: the stand-in"
        );
    }
    let mut summary = built.summary.clone().expect("it passed");
    let room = random.below(3);
    summary.extend(numbers(random, room));
    for _ in 0..asks {
        let (i, j) = stretch(random, n);
        rig.ask(&built, Some(&column.counts), i, j)?;
        rig.quick_ask(&built, &summary, i, j)?;
        let (first, last) = around(random, n, (i, j));
        rig.window(&built, first, last)?;
        rig.window_ask(&built, [first, last, i, j])?;
    }
    Ok(())
}

fn some_column(rig: &mut Rig, random: &mut Random, _: u64) -> Trial {
    let most = random.one_of(&[40, 300, 1200, 1200, 4000]);
    let n = columns::length(random, most);
    let column = columns::any(random, n);
    journey(rig, random, column, 6)
}

fn long_column(rig: &mut Rig, random: &mut Random, _: u64) -> Trial {
    let n = match random.below(4) {
        0 => 32_769,
        1 => 32_768,
        2 => random.from_to(32_640, 32_768),
        _ => columns::length(random, 32_769),
    };
    let column = columns::any(random, n);
    journey(rig, random, column, 40)
}

/// A record with something changed, or no record at all.
pub fn broken(random: &mut Random, most: usize) -> Vec<u8> {
    let n = columns::length(random, most);
    let mut record = match random.below(4) {
        0 => raw(random, n),
        1 => loose(random, n),
        _ => rules::record(&rules::shape(&columns::any(random, n))),
    };
    for _ in 0..random.below(4) {
        damage(random, &mut record);
    }
    record
}

/// A framed record of any bits.
fn raw(random: &mut Random, n: usize) -> Vec<u8> {
    let mut record = vec![0x52, 0x4D, n as u8, (n >> 8) as u8];
    record.extend(bytes(random, n.div_ceil(4)));
    record
}

/// A framed record of as many openings as closings, in any order, no unused bit being 1.
fn loose(random: &mut Random, n: usize) -> Vec<u8> {
    let mut parens: Vec<bool> = (0..2 * n).map(|b| b % 2 == 0).collect();
    for _ in 0..random.below(n + 1) {
        parens.swap(random.below(2 * n), random.below(2 * n));
    }
    rules::record(&parens)
}

fn damage(random: &mut Random, record: &mut Vec<u8>) {
    let length = record.len();
    if length == 0 {
        return record.push(0x52);
    }
    let byte = random.below(length);
    match random.below(10) {
        0..3 => record[byte] ^= 1 << random.below(8),
        3 => record[length - 1] ^= 1 << random.below(8),
        4 => record[length - 1] ^= 0x80,
        5 => record.truncate(byte),
        6 => record.push(random.word() as u8),
        7 => record.truncate(length - 1),
        8 => record[random.below(4.min(length))] = random.word() as u8,
        _ => record.swap(byte, random.below(length)),
    }
}

fn damaged(rig: &mut Rig, random: &mut Random, _: u64) -> Trial {
    let most = random.one_of(&[12, 40, 300, 1200]);
    let record = broken(random, most);
    let record = Bytes::new(record);
    let n = record.entries();
    rig.check(&record)?;
    let (i, j) = stretch(random, n);
    rig.ask(&record, None, i, j)?;
    let room = near(random, n);
    rig.stand_in(&record, &counts(random, room))?;
    let room = near(random, rules::SLOTS);
    rig.fill(&record, &numbers(random, room))?;
    let (first, last) = around(random, n, (i, j));
    rig.window(&record, first, last)?;
    rig.window_ask(&record, [first, last, i, j])?;
    let summary = numbers(random, room);
    rig.quick_ask(&record, &summary, i, j)
}

/// A summary that may be the record's own, and most often is not.
fn stranger(random: &mut Random, record: &Bytes) -> Vec<u16> {
    let n = record.entries();
    let blocks = n.div_ceil(128);
    let mut summary = match random.below(8) {
        0 => vec![random.one_of(&[0, 1, blocks as u16, 65_534, 65_535]); rules::SLOTS],
        1 => numbers(random, rules::SLOTS),
        2 => (0..rules::SLOTS)
            .map(|_| random.below(blocks + 2) as u16)
            .collect(),
        3 => {
            let like = columns::any(random, n.min(1200));
            Bytes::new(rules::record(&rules::shape(&like)))
                .summary
                .expect("a column's")
        }
        _ if record.bytes.len() >= rules::length(n) && n > 0 => {
            Body::of(&record.bytes, n).summary()
        }
        _ => vec![0; rules::SLOTS],
    };
    for _ in 0..random.below(4) {
        let slot = match random.below(4) {
            0 => random.below(blocks + 1),
            1 => 256 + random.below(512),
            2 => 768 + random.below(n / 256 + 1),
            _ => random.below(rules::SLOTS),
        };
        let was = summary[slot];
        summary[slot] = match random.below(6) {
            0 => was.wrapping_add(1),
            1 => was.wrapping_sub(1),
            2 => was.wrapping_add(random.below(9) as u16).wrapping_sub(4),
            3 => random.below(blocks + 2) as u16,
            4 => random.one_of(&[0, 255, 256, 65_535]),
            _ => random.word() as u16,
        };
    }
    if random.once_in(8) {
        let room = near(random, rules::SLOTS);
        summary.resize(room, 77);
    }
    summary
}

fn foreign(rig: &mut Rig, random: &mut Random, _: u64) -> Trial {
    let most = random.one_of(&[40, 600, 1200, 1200, 3000]);
    let record = if random.once_in(3) {
        broken(random, most)
    } else {
        let n = columns::length(random, most);
        rules::record(&rules::shape(&columns::any(random, n)))
    };
    let record = Bytes::new(record);
    let summary = stranger(random, &record);
    for _ in 0..8 {
        let (i, j) = stretch(random, record.entries());
        rig.quick_ask(&record, &summary, i, j)?;
    }
    Ok(())
}

/// A drawer of so many records, framed and of any bits, the last of which may end where a drawer must.
fn drawer(random: &mut Random) -> Vec<u8> {
    let records = match random.below(6) {
        0 => 0,
        1 => random.from_to(62, 66),
        _ => random.below(8),
    };
    let most = random.one_of(&[0, 3, 20, 200, 4000]);
    let mut drawer = Vec::new();
    for _ in 0..records {
        let n = random.below(most + 1);
        drawer.extend(raw(random, n));
    }
    if random.once_in(12) {
        brim(random, &mut drawer);
    }
    drawer
}

/// Records until the drawer has 65,536 bytes, or one or two fewer or more.
fn brim(random: &mut Random, drawer: &mut Vec<u8>) {
    let target = rules::DRAWER - 2 + random.below(5);
    while drawer.len() + 4 <= target {
        let rest = 4 * (target - drawer.len() - 4);
        let n = rest.min(random.one_of(&[8_000, 32_768]));
        drawer.extend(raw(random, n));
    }
    drawer.resize(target, 0x52);
}

/// A drawer, with something changed now and then.
pub fn drawer_or_not(random: &mut Random) -> Vec<u8> {
    let mut drawer = drawer(random);
    if drawer.is_empty() || random.once_in(2) {
        return drawer;
    }
    match random.below(6) {
        0 => {
            let cut = random.below(drawer.len());
            drawer.truncate(cut);
        }
        1 => {
            let more = random.below(6);
            drawer.extend(bytes(random, more));
        }
        2 => damage(random, &mut drawer),
        _ => {
            let fault = random.one_of(&[(0, 0x53), (1, 0x4E), (3, 0x80), (3, 0x81), (2, 0xFF)]);
            let r = random.below(8);
            if let Ok((place, _)) = rules::find(&drawer, r) {
                drawer[place + fault.0] = fault.1;
            }
        }
    }
    drawer
}

fn record_number(random: &mut Random) -> usize {
    match random.below(8) {
        0 => random.from_to(62, 66),
        1 => usize::MAX - random.below(2),
        _ => random.below(8),
    }
}

fn drawers(rig: &mut Rig, random: &mut Random, _: u64) -> Trial {
    let (own, shared) = (drawer_or_not(random), drawer_or_not(random));
    for _ in 0..3 {
        let r = record_number(random);
        rig.find(&own, r)?;
        rig.find(&shared, r)?;
        rig.which(&own, &shared, r)?;
    }
    Ok(())
}

fn appends(rig: &mut Rig, random: &mut Random, _: u64) -> Trial {
    let mut buffer = drawer_or_not(random);
    let mut used = buffer.len();
    let most = random.one_of(&[3, 20, 200, 600]);
    let n = if random.once_in(64) {
        32_769
    } else {
        columns::length(random, most)
    };
    let column = Column::new(columns::any(random, n));
    let room = near(random, rules::length(n));
    buffer.extend(bytes(random, room));
    if random.once_in(16) {
        buffer.resize(rules::DRAWER - 2 + random.below(5), 3);
    }
    match random.below(24) {
        0 => used = buffer.len() + random.below(3),
        1 => used = usize::MAX - random.below(2),
        2 => used = used.saturating_sub(1),
        3 => used = random.below(buffer.len() + 1),
        _ => {}
    }
    let room = near(random, n);
    let work = numbers(random, room);
    rig.append(&buffer, used, &column, &work)
}
