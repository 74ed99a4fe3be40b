//! The trials bite: functions that answer as the archive does but for one slip, each of which must be caught.

use std::cmp::Reverse;

use trials::random::Random;
use trials::rig::{ARCHIVE, Calls, Rig};
use trials::rules;
use trials::suites::SUITES;

const REFUSED: u64 = 1 << 63;

/// Whether a difference shows within the cases of a short run of this suite.
fn caught(calls: Calls, suite: &str) -> bool {
    let suite = SUITES.iter().find(|one| one.name == suite);
    let suite = suite.expect("there is such a suite");
    let mut rig = Rig::new(calls);
    (0..suite.short).any(|number| {
        let mut random = Random::new(1, suite.name, number);
        (suite.run)(&mut rig, &mut random, number).is_err()
    })
}

macro_rules! slips {
    ($($name:ident in $suite:literal: $entry:ident = $slip:expr;)*) => {
        $(
            #[test]
            fn $name() {
                let calls = Calls { $entry: $slip, ..ARCHIVE };
                assert!(caught(calls, $suite));
            }
        )*
    };
}

/// The counts, ranked so that of equal ones the rightmost is the smallest.
fn ties_to_the_right(column: &[u32]) -> Vec<u32> {
    let mut places: Vec<usize> = (0..column.len()).collect();
    places.sort_by_key(|&k| (column[k], Reverse(k)));
    let mut ranks = vec![0; column.len()];
    for (rank, place) in places.into_iter().enumerate() {
        ranks[place] = rank as u32;
    }
    ranks
}

/// The rightmost smallest entry in the place of the leftmost.
fn rightmost(record: &[u8], i: usize, j: usize, said: u64) -> u64 {
    match rules::check(record) {
        Ok(body) if said < REFUSED => {
            let stand_in = body.stand_in();
            let smallest = stand_in[said as usize];
            let last = (i..=j).rev().find(|&k| stand_in[k] == smallest);
            last.map_or(said, |k| k as u64)
        }
        _ => said,
    }
}

/// The frames of a drawer up to record r, with no regard to 64.
fn find_any(drawer: &[u8], r: usize) -> u64 {
    let mut place = 0;
    for k in 0.. {
        if place == drawer.len() {
            return REFUSED | 10;
        }
        match rules::frame(&drawer[place..]) {
            Ok(n) if k == r => return (place as u64) << 32 | rules::length(n) as u64,
            Ok(n) => place += rules::length(n),
            Err(number) => return REFUSED | u64::from(number),
        }
    }
    unreachable!("a drawer has an end")
}

slips! {
    // document 01, "Slips that have to be caught"
    pops_only_the_greater in "every column": build = |column, work, out| {
        (ARCHIVE.build)(&ties_to_the_right(column), work, out)
    };
    takes_the_rightmost in "every column": ask = |record, i, j| {
        rightmost(record, i, j, (ARCHIVE.ask)(record, i, j))
    };
    lets_unused_bits_in in "columns": fill = |record, summary| {
        let said = (ARCHIVE.fill)(record, summary);
        let n = rules::frame(record).unwrap_or(0);
        if said == 0 && !n.is_multiple_of(4) {
            let leaf = &mut summary[512 + (n - 1) / 128];
            *leaf = leaf.wrapping_sub(1);
        }
        said
    };
    begins_with_0 in "columns": fill = |record, summary| {
        let said = (ARCHIVE.fill)(record, summary);
        if said == 0 {
            for k in 0..256 {
                let before = if k == 0 { 0 } else { summary[k - 1] };
                if summary[k] != rules::NONE {
                    summary[512 + k] = summary[512 + k].min(before);
                }
            }
        }
        said
    };
    an_empty_own_record_hides in "drawers": which = |own, shared, r| {
        if (ARCHIVE.find)(own, r) < REFUSED { 0 } else { (ARCHIVE.which)(own, shared, r) }
    };

    // document 01, "How tight each statement is"
    refuses_everything in "every column": build = |_, _, _| REFUSED | 2;
    a_fixed_place in "every column": ask = |record, i, j| {
        let said = (ARCHIVE.ask)(record, i, j);
        if said < REFUSED { i as u64 } else { said }
    };
    writes_nothing in "every column": build = |column, work, out| {
        (ARCHIVE.build)(column, work, &mut out.to_vec())
    };
    only_moves_the_length in "appends": append = |buffer, used, column, work| {
        (ARCHIVE.append)(&mut buffer.to_vec(), used, column, work)
    };
    an_invented_length in "every column": build = |column, work, out| {
        let said = (ARCHIVE.build)(column, work, out);
        if said < REFUSED { said + 1 } else { said }
    };

    // what is lent
    leaves_its_work in "columns": build = |column, work, out| {
        let said = (ARCHIVE.build)(column, work, out);
        if said < REFUSED && let Some(last) = column.len().checked_sub(1) {
            work[last] = 1;
        }
        said
    };
    writes_past_the_record in "columns": build = |column, work, out| {
        let said = (ARCHIVE.build)(column, work, out);
        if let Some(byte) = out.get_mut(said as usize) {
            *byte = !*byte;
        }
        said
    };
    writes_before_it_refuses in "columns": build = |column, work, out| {
        let said = (ARCHIVE.build)(column, work, out);
        if said == REFUSED | 3 && let Some(byte) = out.first_mut() {
            *byte = !*byte;
        }
        said
    };
    stands_in_for_too_many in "columns": stand_in = |record, column| {
        let said = (ARCHIVE.stand_in)(record, column);
        if let Some(count) = column.get_mut(said as usize) {
            *count = !*count;
        }
        said
    };
    fills_a_longer_slice in "columns": fill = |record, summary| {
        let said = (ARCHIVE.fill)(record, summary);
        if said == 0 && let Some(number) = summary.get_mut(896) {
            *number = 65_535;
        }
        said
    };
    changes_a_used_byte in "appends": append = |buffer, used, column, work| {
        let said = (ARCHIVE.append)(buffer, used, column, work);
        if said < REFUSED && used > 0 {
            buffer[used - 1] ^= 1;
        }
        said
    };

    // the order of checks
    judges_bits_before_11 in "damaged records": check = |bytes| {
        let said = (ARCHIVE.check)(bytes);
        let n = rules::frame(bytes).unwrap_or(0);
        let single = bytes.get(..rules::length(n)).map_or(said, ARCHIVE.check);
        if said == REFUSED | 11 && single >= REFUSED { single } else { said }
    };
    asks_8_first in "damaged records": ask = |record, i, j| {
        let n = rules::frame(record).unwrap_or(0);
        if i > j || j >= n { REFUSED | 8 } else { (ARCHIVE.ask)(record, i, j) }
    };
    finds_frames_before_64 in "drawers": find = |drawer, r| {
        if drawer.len() > rules::DRAWER { REFUSED | 12 } else { find_any(drawer, r.min(70)) }
    };
    appends_14_before_13 in "appends": append = |buffer, used, column, work| {
        let said = (ARCHIVE.append)(buffer, used, column, work);
        let full = (ARCHIVE.find)(&buffer[..used.min(buffer.len())], 63) < REFUSED;
        if said == REFUSED | 13 && full { REFUSED | 14 } else { said }
    };
    appends_by_the_used_length in "appends": append = |buffer, used, column, work| {
        let long = buffer.len().min(rules::DRAWER);
        if used <= long { (ARCHIVE.append)(&mut buffer[..long], used, column, work) } else { REFUSED | 13 }
    };
    fills_3_first in "damaged records": fill = |record, summary| {
        if summary.len() < 896 { REFUSED | 3 } else { (ARCHIVE.fill)(record, summary) }
    };

    // answers
    accepts_what_is_framed in "every body": check = |bytes| {
        let said = (ARCHIVE.check)(bytes);
        if said == REFUSED | 7 { 0 } else { said }
    };
    asks_quickly_for_the_rightmost in "columns": quick_ask = |record, summary, i, j| {
        rightmost(record, i, j, (ARCHIVE.quick_ask)(record, summary, i, j))
    };
    always_says_9 in "columns": quick_ask = |record, summary, i, j| {
        let said = (ARCHIVE.quick_ask)(record, summary, i, j);
        if said < REFUSED { REFUSED | 9 } else { said }
    };
    never_says_9 in "foreign summaries": quick_ask = |record, summary, i, j| {
        let said = (ARCHIVE.quick_ask)(record, summary, i, j);
        if said == REFUSED | 9 { i as u64 } else { said }
    };
    leaves_the_stretch in "foreign summaries": quick_ask = |record, summary, i, j| {
        let said = (ARCHIVE.quick_ask)(record, summary, i, j);
        if said == REFUSED | 9 { j as u64 + 1 } else { said }
    };
    says_which_without_the_drawer in "drawers": which = |own, shared, r| {
        (ARCHIVE.which)(own, shared, r) & !(1 << 40)
    };
    puts_something_in_the_place in "every string": check = |bytes| {
        let said = (ARCHIVE.check)(bytes);
        if said < REFUSED { said } else { said | 1 << 8 }
    };
    asks_a_refused_window in "columns": window_ask = |record, first, last, i, j| {
        (ARCHIVE.window)(record, first, last).max((ARCHIVE.window_ask)(record, first, last, i, j))
    };
    asks_before_the_window in "columns": window_ask = |record, first, last, i, j| {
        let said = (ARCHIVE.window_ask)(record, first, last, i, j);
        if said == REFUSED | 8 && i < first { (ARCHIVE.ask)(record, i, j) } else { said }
    };
    makes_a_window_past_the_end in "columns": window = |record, first, last| {
        let said = (ARCHIVE.window)(record, first, last);
        if said == REFUSED | 8 && first <= last { 0 } else { said }
    };
}
