//! The quick ask.

use super::scan::{Low, Scan, in_word, sums, up_to, within};
use super::{frame, length, refused};

/// Frame, 11, 3, 8, then a place or 9.
#[inline(never)]
pub fn quick_ask(record: &[u8], summary: &[u16], i: usize, j: usize) -> u64 {
    let n = match frame(record) {
        Ok(n) => n,
        Err(number) => return refused(number),
    };
    if record.len() > length(n) {
        return refused(11);
    }
    let Some(t) = summary.first_chunk() else {
        return refused(3);
    };
    if i > j || j >= n {
        return refused(8);
    }
    let body = &record[4..];
    match (Asked { body, t, i, j }).place(n.div_ceil(128)) {
        Some(place) => place as u64,
        None => refused(9),
    }
}

struct Asked<'a> {
    body: &'a [u8],
    t: &'a [u16; 896],
    i: usize,
    j: usize,
}

impl Asked<'_> {
    fn place(&self, blocks: usize) -> Option<usize> {
        let a = block(self.t, blocks, self.i)?;
        let b = block(self.t, blocks, self.j)?;
        if a >= b {
            return self.inside(self.same(a)?);
        }
        let leaf = self.leaf(a);
        let shortcut = leaf == self.over(a, b);
        if shortcut {
            let low = self.first(a, leaf)?;
            if low.excess <= leaf {
                return self.inside(low);
            }
            let (mid, node) = self.climb(a, b);
            return self.rest(b, low, mid, node);
        }
        let (mid, node) = self.climb(a, b);
        let low = if leaf <= mid {
            self.first(a, leaf)?
        } else {
            Low::below(i32::MAX)
        };
        self.rest(b, low, mid, node)
    }

    /// What comes behind the first block, whose part is lowest at `low`.
    #[inline]
    fn rest(&self, b: usize, low: Low, mid: i32, node: usize) -> Option<usize> {
        if low.excess <= mid {
            return self.inside(self.last(b, low));
        }
        let low = self.last(b, Low::below(mid));
        if low.next != 0 {
            return self.inside(low);
        }
        let k = self.descend(node);
        let start = self.start(k, Low::below(i32::MAX));
        self.inside(start.run(self.part(k), mid).low)
    }

    /// From closing i to the end of its block.
    #[inline]
    fn first(&self, a: usize, leaf: i32) -> Option<Low> {
        let part = self.part(a);
        let x = select(part, self.i, a, self.before(a))?;
        let begun = self.begun(256 * a + x);
        if begun.excess <= leaf {
            return Some(begun.low);
        }
        let behind = begun.head(part[x / 8], x % 8);
        Some(behind.run(&part[x / 8 + 1..], leaf).low)
    }

    /// From the start of block b to closing j.
    #[inline]
    fn last(&self, b: usize, low: Low) -> Low {
        let leaf = self.leaf(b);
        if low.excess <= leaf {
            return low;
        }
        self.start(b, low).run_to(self.part(b), leaf, self.j)
    }

    /// From closing i to closing j of the same block.
    #[inline]
    fn same(&self, a: usize) -> Option<Low> {
        let part = self.part(a);
        let leaf = self.leaf(a);
        let x = select(part, self.i, a, self.before(a))?;
        let begun = self.begun(256 * a + x);
        if begun.excess <= leaf {
            return Some(begun.low);
        }
        let b = part[x / 8];
        let byte = Scan {
            at: 256 * a + x / 8 * 8,
            excess: begun.excess - within(b, x % 8),
            low: begun.low,
        };
        if let Some(y) = byte.closing_in(b, self.j) {
            return Some(begun.head(up_to(b, y), x % 8).low);
        }
        let behind = begun.head(b, x % 8);
        Some(behind.run_to(&part[x / 8 + 1..], leaf, self.j))
    }

    /// A scan that has just passed closing i.
    #[inline]
    fn begun(&self, place: usize) -> Scan {
        let excess = place as i32 - 2 * self.i as i32 - 1;
        let next = place + 1;
        let low = Low { excess, next };
        Scan {
            at: next,
            excess,
            low,
        }
    }

    /// A scan at the start of block k.
    #[inline]
    fn start(&self, k: usize, low: Low) -> Scan {
        Scan {
            at: 256 * k,
            excess: self.before(k),
            low,
        }
    }

    #[inline]
    fn inside(&self, low: Low) -> Option<usize> {
        let entry = low.entry();
        (self.i <= entry && entry <= self.j).then_some(entry)
    }

    #[inline]
    fn leaf(&self, k: usize) -> i32 {
        i32::from(self.t[512 + k % 256])
    }

    #[inline]
    fn before(&self, k: usize) -> i32 {
        if k == 0 {
            return 0;
        }
        i32::from(self.t[(k - 1) % 256])
    }

    #[inline]
    fn part(&self, k: usize) -> &[u8] {
        let end = self.body.len().min(32 * k + 32);
        self.body.get(32 * k..end).unwrap_or(&[])
    }

    /// The number of the lowest node over both blocks.
    #[inline]
    fn over(&self, a: usize, b: usize) -> i32 {
        let (l, r) = (256 + a as u32, 256 + b as u32);
        let level = u32::BITS - (l ^ r).leading_zeros();
        i32::from(self.t[256 + (l >> level) as usize % 256])
    }

    /// The smallest number among the nodes that cover the blocks between a and b, and the leftmost node that has it.
    #[inline]
    fn climb(&self, a: usize, b: usize) -> (i32, usize) {
        let (mut l, mut r, mut h) = (256 + a, 256 + b, 0);
        let mut best = 16 * 65_536;
        let key = |v: usize, out: usize, rank| {
            16 * (self.t[256 + v % 512] as usize + 65_536 * out) + rank
        };
        while l / 2 != r / 2 {
            best = best.min(key(l | 1, l % 2, h));
            best = best.min(key(r & !1, 1 - r % 2, 15 - h));
            l /= 2;
            r /= 2;
            h += 1;
        }
        let rank = best % 16;
        let node = if rank < 8 {
            ((256 + a) >> rank) + 1
        } else {
            ((256 + b) >> (15 - rank)) - 1
        };
        ((best / 16) as i32, node)
    }

    #[inline]
    fn descend(&self, node: usize) -> usize {
        let mut v = node;
        while v < 256 {
            v *= 2;
            v += usize::from(self.t[256 + v] > self.t[257 + v]);
        }
        v - 256
    }
}

/// The block of closing i.
#[inline]
fn block(t: &[u16; 896], blocks: usize, i: usize) -> Option<usize> {
    let q = i / 256;
    let first = t[768 + q % 128] as usize;
    if first >= blocks {
        return None;
    }
    let passed = |b: usize| 256 * (b + 1) <= 2 * i + t[b % 512] as usize;
    let b = first + usize::from(passed(first)) + usize::from(passed(first + 1));
    if b + 1 < blocks && !passed(b) {
        return Some(b);
    }
    let next = t.get(769 + q).map_or(blocks, |&next| next as usize);
    let (mut from, mut to) = (first, blocks - 1);
    if first <= next && next < blocks {
        to = next;
    }
    while from < to {
        let mid = (from + to) / 2;
        if passed(mid) {
            from = mid + 1;
        } else {
            to = mid;
        }
    }
    Some(from)
}

/// Where closing i stands in its block: four words at once, and no branch to tell which.
#[inline]
fn select(part: &[u8], i: usize, k: usize, before: i32) -> Option<usize> {
    let c = usize::try_from((2 * i as i64 + i64::from(before) - 256 * k as i64) / 2).ok()?;
    let mut short = [0xFF; 32];
    let block = match part.first_chunk() {
        Some(whole) => whole,
        None => {
            short[..part.len()].copy_from_slice(part);
            &short
        }
    };
    let (words, _) = block.as_chunks();
    let bits = [0, 1, 2, 3].map(|k| !u64::from_le_bytes(words[k]));
    let sums = bits.map(sums);
    let one = (sums[0] >> 56) as usize;
    let two = one + (sums[1] >> 56) as usize;
    let three = two + (sums[2] >> 56) as usize;
    let four = three + (sums[3] >> 56) as usize;
    if c >= four {
        return None;
    }
    let k = usize::from(c >= one) + usize::from(c >= two) + usize::from(c >= three);
    let c = c - [0, one, two, three][k];
    Some(64 * k + in_word(bits[k], sums[k], c))
}
