//! The record check, the plain ask, fill and find.

use super::scan::{Low, ROWS, Scan};
use super::{frame, length, refused};

/// The record check.
#[inline(never)]
pub fn check(bytes: &[u8]) -> u64 {
    match checked(bytes) {
        Ok(_) => 0,
        Err(number) => refused(number),
    }
}

/// Frame and 11.
#[inline]
fn single(bytes: &[u8]) -> Result<usize, u64> {
    let n = frame(bytes)?;
    if bytes.len() > length(n) {
        return Err(11);
    }
    Ok(n)
}

/// 6, and the last byte with openings for its unused bits.
#[inline]
fn last_byte(n: usize, last: u8) -> Result<u8, u64> {
    let used = 8 - (8 - 2 * n % 8) % 8;
    let unused = (0xFFu32 << used) as u8;
    if last & unused != 0 {
        return Err(6);
    }
    Ok(last | unused)
}

#[inline]
fn checked(bytes: &[u8]) -> Result<usize, u64> {
    let n = single(bytes)?;
    let Some((&last, body)) = bytes[4..].split_last() else {
        return Ok(0);
    };
    let last = last_byte(n, last)?;
    let mut excess = 0;
    let (words, rest) = body.as_chunks::<8>();
    for word in words {
        // an excess this high can't fall below 0 within eight bytes
        if excess >= 64 {
            let ones = u64::from_le_bytes(*word).count_ones();
            excess += 2 * ones as i32 - 64;
            continue;
        }
        excess = past(excess, word).ok_or(7u64)?;
    }
    excess = past(excess, rest).ok_or(7u64)?;
    excess = past(excess, &[last]).ok_or(7u64)?;
    let spare = (8 * (bytes.len() - 4) - 2 * n) as i32;
    if excess == spare { Ok(n) } else { Err(7) }
}

/// The excess behind these bytes, unless it fell below 0.
#[inline]
fn past(mut excess: i32, bytes: &[u8]) -> Option<i32> {
    let mut lowest = 0;
    for &b in bytes {
        let row = ROWS[b as usize];
        lowest = lowest.min(excess + i32::from(row[1]));
        excess += i32::from(row[0]);
    }
    (lowest >= 0).then_some(excess)
}

/// The plain ask.
#[inline(never)]
pub fn ask(record: &[u8], i: usize, j: usize) -> u64 {
    let n = match checked(record) {
        Ok(n) => n,
        Err(number) => return refused(number),
    };
    if i > j || j >= n {
        return refused(8);
    }
    let body = &record[4..];
    let mut scan = Scan {
        at: 0,
        excess: 0,
        low: Low::below(i32::MAX),
    };
    let (words, _) = body.as_chunks::<8>();
    let mut m = 0;
    for word in words {
        let ones = u64::from_le_bytes(*word).count_ones() as i32;
        let after = scan.excess + 2 * ones - 64;
        if (scan.at as i64 + 64 - i64::from(after)) / 2 > i as i64 {
            break;
        }
        scan.excess = after;
        scan.at += 64;
        m += 8;
    }
    loop {
        if let Some(x) = scan.closing_in(body[m], i) {
            let place = scan.at + x;
            let excess = place as i32 - 2 * i as i32 - 1;
            let byte = scan;
            let begun = Scan {
                at: place + 1,
                excess,
                low: Low {
                    excess,
                    next: place + 1,
                },
            };
            if let Some(y) = byte.closing_in(body[m], j) {
                let within = super::scan::up_to(body[m], y);
                return begun.head(within, x).low.entry() as u64;
            }
            let behind = begun.head(body[m], x);
            return behind.run_to(&body[m + 1..], -1, j).entry() as u64;
        }
        scan.excess += i32::from(ROWS[body[m] as usize][0]);
        scan.at += 8;
        m += 1;
    }
}

/// Fill.
#[inline(never)]
pub fn fill(record: &[u8], summary: &mut [u16]) -> u64 {
    let n = match checked(record) {
        Ok(n) => n,
        Err(number) => return refused(number),
    };
    let Some(t) = summary.first_chunk_mut::<896>() else {
        return refused(3);
    };
    t.fill(65_535);
    let mut excess = 0;
    let mut closings = 0usize;
    for (k, block) in record[4..].chunks(32).enumerate() {
        let mut lowest = i32::MAX;
        for &b in block {
            let row = ROWS[b as usize];
            lowest = lowest.min(excess + i32::from(row[1]));
            excess += i32::from(row[0]);
        }
        // the unused bits are closings: a record's last excess is 0, and none is below it
        excess = excess.max(0);
        let passed = n.min((256 * (k + 1) - excess as usize) / 2);
        t[k] = excess as u16;
        t[512 + k] = lowest.max(0) as u16;
        let named = closings.div_ceil(256);
        if 256 * named < passed {
            t[768 + named] = k as u16;
        }
        closings = passed;
    }
    for v in (1..256).rev() {
        t[256 + v] = t[256 + 2 * v].min(t[257 + 2 * v]);
    }
    0
}

/// Find.
#[inline(never)]
pub fn find(drawer: &[u8], r: usize) -> u64 {
    if drawer.len() > 65_536 {
        return refused(12);
    }
    if r >= 64 {
        return refused(10);
    }
    let (mut place, mut left) = (0, r);
    while place < drawer.len() {
        let size = match frame(&drawer[place..]) {
            Ok(n) => length(n),
            Err(number) => return refused(number),
        };
        if left == 0 {
            return (place as u64) << 32 | size as u64;
        }
        left -= 1;
        place += size;
    }
    refused(10)
}
