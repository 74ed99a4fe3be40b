//! Scans of parentheses by whole bytes, and places of closings by words.

/// The leftmost smallest excess so far, and the place behind it.
#[derive(Clone, Copy)]
pub(super) struct Low {
    pub(super) excess: i32,
    pub(super) next: usize,
}

impl Low {
    /// None so far: only what is below this excess counts.
    #[inline]
    pub(super) fn below(excess: i32) -> Low {
        Low { excess, next: 0 }
    }

    /// The number of the entry whose closing this is.
    #[inline]
    pub(super) fn entry(self) -> usize {
        ((self.next as i64 - i64::from(self.excess)) / 2 - 1) as usize
    }
}

/// Where a scan is: the place of the next bit, the excess before it, and the lowest so far.
#[derive(Clone, Copy)]
pub(super) struct Scan {
    pub(super) at: usize,
    pub(super) excess: i32,
    pub(super) low: Low,
}

impl Scan {
    /// Past one byte.
    #[inline]
    pub(super) fn byte(self, b: u8) -> Scan {
        let row = ROWS[b as usize];
        let smallest = self.excess + i32::from(row[1]);
        let low = if smallest < self.low.excess {
            Low {
                excess: smallest,
                next: self.at + row[2] as usize + 1,
            }
        } else {
            self.low
        };
        Scan {
            at: self.at + 8,
            excess: self.excess + i32::from(row[0]),
            low,
        }
    }

    /// From the closing at bit x of a byte, where the scan stands, past the rest of the byte. The bits are moved down, and
    /// openings fill what is left.
    #[inline]
    pub(super) fn head(self, b: u8, x: usize) -> Scan {
        let moved = ((0xFF00 | u32::from(b)) >> (x + 1)) as u8;
        let next = self.byte(moved);
        Scan {
            at: next.at - x - 1,
            excess: next.excess - x as i32 - 1,
            low: next.low,
        }
    }

    /// Past whole bytes, or until the lowest is no higher than `stop`.
    #[inline]
    pub(super) fn run(mut self, part: &[u8], stop: i32) -> Scan {
        let (fours, rest) = part.as_chunks::<4>();
        for four in fours {
            if self.low.excess <= stop {
                return self;
            }
            for &b in four {
                self = self.byte(b);
            }
        }
        for &b in rest {
            self = self.byte(b);
        }
        self
    }

    /// Up to closing j and with it, or until the lowest is no higher than `stop`.
    #[inline]
    pub(super) fn run_to(mut self, part: &[u8], stop: i32, j: usize) -> Low {
        for &b in part {
            if self.low.excess <= stop {
                return self.low;
            }
            if let Some(y) = self.closing_in(b, j) {
                return self.byte(up_to(b, y)).low;
            }
            self = self.byte(b);
        }
        self.low
    }

    /// The bit of this byte at which closing j stands, if it is not further on.
    #[inline]
    pub(super) fn closing_in(self, b: u8, j: usize) -> Option<usize> {
        let after = self.excess + i32::from(ROWS[b as usize][0]);
        if ((self.at + 8) as i64 - i64::from(after)) < 2 * j as i64 + 2 {
            return None;
        }
        let before = (self.at as i64 - i64::from(self.excess)) / 2;
        Some(nth(!b, j.wrapping_sub(before as usize)))
    }
}

/// The bits up to bit y; openings fill what is behind.
#[inline]
pub(super) fn up_to(b: u8, y: usize) -> u8 {
    b | (0xFEu32 << y) as u8
}

/// The excess of the bits of a byte up to bit x and with it.
#[inline]
pub(super) fn within(b: u8, x: usize) -> i32 {
    let bits = (u32::from(b) << (7 - x)) as u8;
    2 * bits.count_ones() as i32 - x as i32 - 1
}

/// The ones of each byte, with those of the bytes below.
#[inline]
pub(super) fn sums(bits: u64) -> u64 {
    let twos = bits - (bits >> 1 & 0x5555_5555_5555_5555);
    let fours = (twos & 0x3333_3333_3333_3333) + (twos >> 2 & 0x3333_3333_3333_3333);
    let eights = (fours + (fours >> 4)) & 0x0F0F_0F0F_0F0F_0F0F;
    eights.wrapping_mul(0x0101_0101_0101_0101)
}

/// The place of one number c of a word whose sums these are.
#[inline]
pub(super) fn in_word(bits: u64, sums: u64, c: usize) -> usize {
    let passed = (0x0101_0101_0101_0101 * c as u64 + 0x8080_8080_8080_8080).wrapping_sub(sums)
        & 0x8080_8080_8080_8080;
    let d = 64 - passed.leading_zeros();
    let before = (sums << 8 >> d) as u8;
    d as usize + nth((bits >> d) as u8, c.wrapping_sub(usize::from(before)))
}

/// The place of one number c of a byte.
#[inline]
fn nth(b: u8, c: usize) -> usize {
    usize::from(NTH[c % 8][b as usize])
}

/// Of each byte: the total, the smallest running total, and where that stands first.
pub(super) static ROWS: [[i8; 4]; 256] = {
    let mut rows = [[0; 4]; 256];
    let mut b = 0;
    while b < 256 {
        let (mut total, mut smallest, mut place, mut k) = (0i8, 9i8, 0i8, 0);
        while k < 8 {
            total += if b >> k & 1 == 1 { 1 } else { -1 };
            if total < smallest {
                smallest = total;
                place = k;
            }
            k += 1;
        }
        rows[b] = [total, smallest, place, 0];
        b += 1;
    }
    rows
};

static NTH: [[u8; 256]; 8] = {
    let mut rows = [[0; 256]; 8];
    let mut b = 0;
    while b < 256 {
        let (mut c, mut k) = (0, 0);
        while k < 8 {
            if b >> k & 1 == 1 {
                rows[c][b] = k;
                c += 1;
            }
            k += 1;
        }
        b += 1;
    }
    rows
};
