//! Build and append.

use super::{frame, length, refused};

/// Build: from the right, the left spine of the tree on a stack in the work memory.
#[inline(never)]
pub fn build(column: &[u32], work: &mut [u16], out: &mut [u8]) -> u64 {
    let n = column.len();
    if n > 32_768 {
        return refused(1);
    }
    if out.len() < length(n) {
        return refused(2);
    }
    let Some(work) = work.get_mut(..n) else {
        return refused(3);
    };
    let record = &mut out[..length(n)];
    record[..4].copy_from_slice(&[0x52, 0x4D, n as u8, (n >> 8) as u8]);
    let mut pen = Pen::new(&mut record[4..], n);
    let (mut h, mut top) = (0, 0);
    for (i, &count) in column.iter().enumerate().rev() {
        let mut stays = h;
        if h > 0 && top >= count {
            stays -= 1;
            while stays > 0 && column[work[stays - 1] as usize] >= count {
                stays -= 1;
            }
        }
        pen.closes_behind(h - stays);
        work[stays] = i as u16;
        h = stays + 1;
        top = count;
    }
    pen.opens(h);
    pen.end();
    work.fill(0);
    length(n) as u64
}

/// Writes parentheses from the last to the first, four bytes at a time. Fewer than 32 are held between calls, the
/// earliest lowest.
struct Pen<'a> {
    bits: u64,
    held: usize,
    left: usize,
    out: &'a mut [u8],
}

impl<'a> Pen<'a> {
    /// The unused bits of the last byte are held as closings.
    fn new(out: &'a mut [u8], n: usize) -> Pen<'a> {
        Pen {
            bits: 0,
            held: 8 * out.len() - 2 * n,
            left: out.len(),
            out,
        }
    }

    /// So many openings, which stand behind the next closing, and that closing.
    #[inline]
    fn closes_behind(&mut self, openings: usize) {
        if openings > 31 {
            self.opens(openings - 31);
        }
        let openings = openings.min(31);
        self.bits = (((self.bits + 1) << openings) - 1) << 1;
        self.held += openings + 1;
        self.flush();
    }

    fn opens(&mut self, mut openings: usize) {
        while openings > 0 {
            let now = openings.min(31);
            self.bits = ((self.bits + 1) << now) - 1;
            self.held += now;
            openings -= now;
            self.flush();
        }
    }

    #[inline]
    fn flush(&mut self) {
        if self.held >= 32 {
            self.held -= 32;
            let word = (self.bits >> self.held) as u32;
            self.bits &= (1 << self.held) - 1;
            let to = self.left;
            self.left = to.wrapping_sub(4);
            self.out[self.left..to].copy_from_slice(&word.to_le_bytes());
        }
    }

    fn end(self) {
        let bytes = self.bits.to_le_bytes();
        self.out[..self.left].copy_from_slice(&bytes[..self.left]);
    }
}

/// Append.
#[inline(never)]
pub fn append(buffer: &mut [u8], used: usize, column: &[u32], work: &mut [u16]) -> u64 {
    if buffer.len() > 65_536 {
        return refused(12);
    }
    let Some(records) = buffer.get(..used) else {
        return refused(13);
    };
    let (mut place, mut count) = (0, 0);
    while place < used {
        match frame(&records[place..]) {
            Ok(n) => place += length(n),
            Err(_) => return refused(13),
        }
        count += 1;
    }
    if count >= 64 {
        return refused(14);
    }
    match build(column, work, &mut buffer[used..]) {
        answer if answer >> 63 == 1 => answer,
        answer => used as u64 + answer,
    }
}
