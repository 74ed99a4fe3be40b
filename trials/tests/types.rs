//! The host crate's types against the rules: what they hand out, and what they refuse.

use stayharrow::{Drawer, DrawerBuf, LookRefused, Origin, Record, RecordBuf, Refusal, Window};
use trials::random::Random;
use trials::rules::{self, Said};
use trials::{columns, suites};

const CASES: u64 = 20_000;

fn cases(name: &str, mut case: impl FnMut(&mut Random)) {
    for number in 0..CASES {
        case(&mut Random::new(7, name, number));
    }
}

fn numbered<T>(result: Result<T, Refusal>) -> Said<T> {
    result.map_err(Refusal::number)
}

#[test]
fn records() {
    cases("records", |random| {
        let bytes = suites::broken(random, 300);
        let checked = rules::check(&bytes);
        let record = numbered(Record::new(&bytes));
        assert_eq!(record.is_ok(), checked.is_ok());
        let (record, body) = match (record, checked) {
            (Ok(record), Ok(body)) => (record, body),
            (record, checked) => return assert_eq!(record.err(), checked.err()),
        };
        let n = body.entries();
        assert_eq!((record.entries(), record.as_bytes()), (n, &bytes[..]));
        let parens: String = body
            .parens
            .iter()
            .map(|&opens| if opens { '(' } else { ')' })
            .collect();
        assert_eq!(record.to_string(), parens);
        assert_eq!(record.to_stand_in(), body.stand_in());
        let built = RecordBuf::build(&body.stand_in());
        assert_eq!(built.map(RecordBuf::into_bytes).as_deref(), Ok(&bytes[..]));
        let indexed = record.index();
        assert_eq!(indexed.summary(), body.summary());
        let (i, j) = (random.below(n + 2), random.below(n + 2));
        let asked = rules::ask(&Ok(body.clone()), i, j).map(|place| place as usize);
        assert_eq!(numbered(record.ask(i..=j)), asked);
        assert_eq!(numbered(indexed.ask(i..=j)), asked);
        let (first, last) = (random.below(n + 2), random.below(n + 2));
        match Window::new(&bytes, first..=last) {
            Ok(window) => {
                let asked = rules::window_ask(&Ok(body), first, last, i, j);
                let place = numbered(window.ask(i..=j)).map(|place| place as u64);
                assert_eq!(place, asked);
            }
            Err(refusal) => {
                let refused = rules::window(&Ok(body), first, last);
                assert_eq!(Err(refusal.number()), refused);
            }
        }
    });
}

#[test]
fn an_exhausted_stretch_is_empty() {
    let record = RecordBuf::build(&[1, 2, 3]).expect("it is short");
    let mut stretch = 1..=1;
    stretch.next();
    assert_eq!(record.as_record().ask(stretch), Err(Refusal::OutOfRange));
}

#[test]
fn drawers() {
    cases("drawers", |random| {
        let (own, shared) = (suites::drawer_or_not(random), suites::drawer_or_not(random));
        let r = random.below(6);
        let found = rules::find(&own, r).map(|(place, length)| place..place + length);
        let drawers = Drawer::new(&own).and_then(|own| Ok((own, Drawer::new(&shared)?)));
        let Ok((own_drawer, shared_drawer)) = drawers else {
            assert!(own.len().max(shared.len()) > rules::DRAWER);
            return;
        };
        assert_eq!(numbered(own_drawer.find(r)), found);
        assert_eq!(
            numbered(own_drawer.hand_out(r)),
            found.map(|range| &own[range])
        );
        let seen = own_drawer.look(shared_drawer, r);
        match (seen, rules::which(&own, &shared, r)) {
            (Ok(seen), Ok(in_shared)) => {
                let (origin, from) = if in_shared {
                    (Origin::Shared, &shared)
                } else {
                    (Origin::Own, &own)
                };
                let (place, length) = rules::find(from, r).expect("the look found it");
                assert_eq!(
                    (seen.origin, seen.bytes),
                    (origin, &from[place..place + length])
                );
            }
            (Err(LookRefused { origin, refusal }), Err((number, in_shared))) => {
                assert_eq!(
                    (origin == Origin::Shared, refusal.number()),
                    (in_shared, number)
                );
            }
            (seen, which) => panic!("{seen:?}, and the rules say {which:?}"),
        }
        let mut r = 0;
        for part in own_drawer {
            let found = rules::find(&own, r).map(|(place, length)| &own[place..place + length]);
            assert_eq!(numbered(part), found);
            r += 1;
        }
        let end = rules::find(&own, r).err();
        let faulty = r > 0 && rules::find(&own, r - 1).is_err();
        assert!(end == Some(10) || faulty);
    });
}

#[test]
fn growing_drawers() {
    cases("growing drawers", |random| {
        let room = random.below(200);
        let (mut buffer, mut work) = (vec![0; room], vec![0; 40]);
        let mut drawer = DrawerBuf::new(&mut buffer).expect("it is short");
        let mut all = Vec::new();
        for _ in 0..random.below(70) {
            let n = random.below(12);
            let column = rules::Column::new(columns::any(random, n));
            let fits = all.len() + column.record.len() <= room;
            let full = drawer.as_drawer().iter().count() >= rules::RECORDS;
            let refused = if full {
                Refusal::DrawerFull
            } else {
                Refusal::OutputShort
            };
            match drawer.append(&column.counts, &mut work) {
                Ok(record) => {
                    assert!(fits && !full);
                    assert_eq!(record.as_bytes(), column.record);
                    all.extend(column.record);
                }
                Err(refusal) => assert_eq!((refusal, fits && !full), (refused, false)),
            }
            assert_eq!(
                (drawer.used(), drawer.as_drawer().as_bytes()),
                (all.len(), &all[..])
            );
        }
        assert_eq!(drawer.into_drawer().as_bytes(), all);
    });
}
