//! Document 01, "Numbers on both sides" and "Slips that have to be caught": the rows, said by the archive and by the
//! rules that it is compared with.

use stayharrow::{DrawerBuf, Record, RecordBuf, Refusal, entry};
use trials::rules::{self, Body, Column};

fn built(counts: &[u32]) -> Vec<u8> {
    let record = RecordBuf::build(counts).expect("the builder accepts it");
    let by_rules = Column::new(counts.to_vec()).record;
    assert_eq!(record.as_bytes(), by_rules, "the record of {counts:?}");
    by_rules
}

fn asked(record: &[u8], i: usize, j: usize) -> usize {
    let place = Record::new(record).and_then(|record| record.ask(i..=j));
    let by_rules = rules::check(record).map(|body| body.between(i, j));
    assert_eq!(place.ok(), by_rules.ok());
    place.expect("it is in range")
}

fn refused(bytes: &[u8]) -> u8 {
    let refusal = Record::new(bytes).expect_err("it is refused").number();
    assert_eq!(rules::check(bytes).err(), Some(refusal));
    refusal
}

#[test]
fn records() {
    let rows: [(&[u32], &[u8]); 7] = [
        (&[], &[0x52, 0x4D, 0, 0]),
        (&[7], &[0x52, 0x4D, 1, 0, 0x01]),
        (&[1, 2], &[0x52, 0x4D, 2, 0, 0x05]),
        (&[5, 5], &[0x52, 0x4D, 2, 0, 0x05]),
        (&[2, 1], &[0x52, 0x4D, 2, 0, 0x03]),
        (&[3, 1, 2], &[0x52, 0x4D, 3, 0, 0x13]),
        (&[4, 2, 4, 2, 9], &[0x52, 0x4D, 5, 0, 0x33, 0x01]),
    ];
    for (counts, record) in rows {
        assert_eq!(built(counts), record);
    }
}

#[test]
fn no_entries_no_ask() {
    let record = built(&[]);
    for places in [(0, 0), (0, 1), (1, 0), (usize::MAX, usize::MAX)] {
        let said = entry::ask(&record, places.0, places.1).result();
        assert_eq!(said, Err(Refusal::OutOfRange));
    }
}

#[test]
fn asks() {
    let record = built(&[4, 2, 4, 2, 9]);
    let places = [(0, 4), (1, 3), (2, 4), (2, 2)].map(|(i, j)| asked(&record, i, j));
    assert_eq!(places, [1, 1, 3, 2]);
}

#[test]
fn stand_in() {
    let record = built(&[4, 2, 4, 2, 9]);
    let stand_in = rules::check(&record).map(|body| body.stand_in());
    assert_eq!(stand_in.as_deref(), Ok(&[1, 0, 1, 0, 0][..]));
    let record = Record::new(&record).expect("it passes");
    assert_eq!(record.to_stand_in(), [1, 0, 1, 0, 0]);
}

#[test]
fn refusals() {
    let one = |last| [0x52, 0x4D, 1, 0, last];
    assert_eq!([2, 3, 5].map(|last| refused(&one(last))), [7, 7, 6]);
    assert_eq!(refused(&[0x52, 0x4D, 0x01, 0x80]), 1);
    assert_eq!(refused(&[0x52, 0x4D, 0x00, 0x80]), 5);
}

#[test]
fn falling_entries() {
    let falling = |n: u32| -> Vec<u32> { (0..n).rev().collect() };
    let record = built(&falling(129));
    let record = Record::new(&record).expect("it passes");
    let indexed = record.index();
    let slots = indexed.summary();
    assert_eq!(
        (&slots[..3], &slots[512..515]),
        (&[2, 0, 65_535][..], &[1, 0, 65_535][..])
    );
    assert_eq!(
        (indexed.ask(0..=128), record.ask(0..=128)),
        (Ok(128), Ok(128))
    );
    let body = Body::of(record.as_bytes(), 129);
    assert_eq!(slots, body.summary());

    let record = built(&falling(128));
    let record = Record::new(&record).expect("it passes");
    assert_eq!(record.index().summary()[..2], [0, 65_535]);
}

#[test]
fn the_longest_column() {
    assert_eq!(built(&vec![3; 32_768]).len(), 8_196);
    let longer = RecordBuf::build(&vec![3; 32_769]);
    assert_eq!(longer, Err(Refusal::TooManyEntries));
}

#[test]
fn a_foreign_summary() {
    let record = built(&[4, 2, 4, 2, 9]);
    let record = Record::new(&record).expect("it passes");
    assert_eq!(
        record.quick_ask(&[65_535; 896], 0..=4),
        Err(Refusal::Foreign)
    );
}

/// The slips: popping only the greater entries, the rightmost of several, unused bits, a byte of FF, an own record of
/// n = 0.
#[test]
fn slips() {
    assert_eq!(asked(&built(&[5, 5]), 0, 1), 0);
    assert_eq!(asked(&built(&[4, 2, 4, 2, 9]), 1, 3), 1);

    let record = built(&[9, 8, 7]);
    let record = Record::new(&record).expect("it passes");
    assert_eq!(
        record.index().summary()[512],
        0,
        "the last excess, and no unused bit behind it"
    );

    let deep: Vec<u32> = (0..300).rev().collect();
    let record = built(&deep);
    let record = Record::new(&record).expect("it passes");
    assert_eq!(record.as_bytes()[4], 0xFF);
    assert_eq!(record.index().summary()[512], 1);

    let (mut own, mut shared) = ([0; 16], [0; 16]);
    let mut hiding = DrawerBuf::new(&mut own).expect("it is short");
    hiding.append(&[], &mut []).expect("there is room");
    let mut behind = DrawerBuf::new(&mut shared).expect("it is short");
    behind.append(&[2, 1], &mut [0; 2]).expect("there is room");
    let seen = hiding
        .as_drawer()
        .look(behind.as_drawer(), 0)
        .expect("the shared one has it");
    assert_eq!(seen.bytes, built(&[2, 1]));
    assert_eq!(
        rules::which(hiding.as_drawer().as_bytes(), seen.bytes, 0),
        Ok(true)
    );
}
