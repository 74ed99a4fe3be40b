//! Document 01 restated in plain Rust, sentence by sentence.
//!
//! It shares nothing with the code that it is compared with: no table, no shift, no block search. Where the document
//! gives a definition, this is the definition run as it stands, by loops over whole lists.

/// The most entries.
pub const MOST: usize = 32_768;
/// The most bytes of a drawer.
pub const DRAWER: usize = 65_536;
/// The most records of a drawer.
pub const RECORDS: usize = 64;
/// The numbers of a summary.
pub const SLOTS: usize = 896;
/// What a slot with no block or closing has.
pub const NONE: u16 = 65_535;

/// What an entry point says: a number, or a refusal's number.
pub type Said<T = u64> = Result<T, u8>;

/// "Let p be the place of the leftmost smallest entry", of the entries from `i` to `j`, both counted in.
pub fn leftmost_smallest(column: &[u32], i: usize, j: usize) -> usize {
    i + leftmost_least(&column[i..=j])
}

/// The leftmost place of the smallest of these numbers: the smallest by one loop, its first place by another, which
/// passes stretches that have none of it.
fn leftmost_least<T: Copy + Ord>(numbers: &[T]) -> usize {
    let smallest = numbers.iter().copied().min().expect("there are some");
    let mut stretches = numbers.chunks(64);
    let stretch = stretches.position(|stretch| stretch.contains(&smallest));
    let mut place = 64 * stretch.expect("it is there");
    while numbers[place] != smallest {
        place += 1;
    }
    place
}

/// "The shape is an opening parenthesis, the shape of the entries before p, a closing parenthesis, the shape of the
/// entries after p." What is still to be done waits on a stack, since a shape may be 32,768 deep.
pub fn shape(column: &[u32]) -> Vec<bool> {
    enum Do {
        Shape(usize, usize),
        Close,
    }
    let mut parens = Vec::with_capacity(2 * column.len());
    let mut todo = vec![Do::Shape(0, column.len())];
    while let Some(next) = todo.pop() {
        match next {
            Do::Shape(from, to) if from == to => {}
            Do::Shape(from, to) => {
                let p = leftmost_smallest(column, from, to - 1);
                parens.push(true);
                todo.push(Do::Shape(p + 1, to));
                todo.push(Do::Close);
                todo.push(Do::Shape(from, p));
            }
            Do::Close => parens.push(false),
        }
    }
    parens
}

/// "Mark 52 4D (hex); n as two bytes, low byte first; then n/4 bytes, rounded up. Parenthesis b is bit b mod 8 (lowest
/// first) of byte b/8; 1 opens. Unused bits of the last byte are 0."
pub fn record(parens: &[bool]) -> Vec<u8> {
    let n = parens.len() / 2;
    let mut bytes = vec![0x52, 0x4D, (n % 256) as u8, (n / 256) as u8];
    bytes.resize(length(n), 0);
    for (b, &opens) in parens.iter().enumerate() {
        if opens {
            bytes[4 + b / 8] |= 1 << (b % 8);
        }
    }
    bytes
}

/// The length of a record of n entries.
pub fn length(n: usize) -> usize {
    4 + n.div_ceil(4)
}

/// A column beside its record, by the definitions; a column of more than 32,768 entries has none.
#[derive(Clone, Debug)]
pub struct Column {
    /// The counts.
    pub counts: Vec<u32>,
    /// The record.
    pub record: Vec<u8>,
}

impl Column {
    /// The column of these counts.
    pub fn new(counts: Vec<u32>) -> Column {
        let record = if counts.len() <= MOST {
            record(&shape(&counts))
        } else {
            Vec::new()
        };
        Column { counts, record }
    }
}

/// Frame: "5 for fewer than 4 bytes, 4, 1, 5 for the rest". It says n.
pub fn frame(bytes: &[u8]) -> Said<usize> {
    if bytes.len() < 4 {
        return Err(5);
    }
    if bytes[..2] != [0x52, 0x4D] {
        return Err(4);
    }
    let n = bytes[2] as usize + 256 * bytes[3] as usize;
    if n > MOST {
        return Err(1);
    }
    if bytes.len() < length(n) {
        return Err(5);
    }
    Ok(n)
}

/// The parentheses of a framed record, and what document 01 counts about them.
#[derive(Clone, Debug, Default)]
pub struct Body {
    /// The parentheses; true opens.
    pub parens: Vec<bool>,
    /// The excess after each.
    pub excesses: Vec<i32>,
    /// The place of each closing.
    pub closings: Vec<usize>,
}

impl Body {
    /// The parentheses of the n entries of a framed record.
    pub fn of(bytes: &[u8], n: usize) -> Body {
        let parens = (0..2 * n).map(|b| bytes[4 + b / 8] >> (b % 8) & 1 == 1);
        Body::from_parens(parens.collect())
    }

    fn from_parens(parens: Vec<bool>) -> Body {
        let mut excesses = Vec::with_capacity(parens.len());
        let mut closings = Vec::with_capacity(parens.len() / 2);
        let mut excess = 0;
        for (place, &opens) in parens.iter().enumerate() {
            excess += if opens { 1 } else { -1 };
            excesses.push(excess);
            if !opens {
                closings.push(place);
            }
        }
        Body {
            parens,
            excesses,
            closings,
        }
    }

    /// The number of entries.
    pub fn entries(&self) -> usize {
        self.parens.len() / 2
    }

    /// "A sequence is balanced when no excess is below 0 and the last is 0."
    pub fn balanced(&self) -> bool {
        self.excesses.iter().all(|&e| e >= 0) && self.excesses.last().is_none_or(|&e| e == 0)
    }

    /// "The entry whose closing is the leftmost place of smallest excess from closing i to closing j."
    pub fn between(&self, i: usize, j: usize) -> usize {
        let (from, to) = (self.closings[i], self.closings[j]);
        let place = from + leftmost_least(&self.excesses[from..=to]);
        self.closings
            .binary_search(&place)
            .expect("the leftmost place of smallest excess is a closing")
    }

    /// "The stand-in column of a balanced sequence has at entry k the excess just after closing k."
    pub fn stand_in(&self) -> Vec<u32> {
        let after = |&place: &usize| self.excesses[place] as u32;
        self.closings.iter().map(after).collect()
    }

    /// The number of blocks of 256 parentheses.
    pub fn blocks(&self) -> usize {
        self.parens.len().div_ceil(256)
    }

    /// The summary, slot by slot.
    pub fn summary(&self) -> Vec<u16> {
        let mut slots = vec![NONE; SLOTS];
        for (k, block) in self.excesses.chunks(256).enumerate() {
            slots[k] = *block.last().expect("no block is empty") as u16;
            slots[512 + k] = *block.iter().min().expect("no block is empty") as u16;
        }
        for v in (1..256).rev() {
            slots[256 + v] = slots[256 + 2 * v].min(slots[256 + 2 * v + 1]);
        }
        for (t, place) in self.closings.iter().step_by(256).enumerate() {
            slots[768 + t] = (place / 256) as u16;
        }
        slots
    }
}

/// Record check: "frame, 11, 6, 7". It says the record's parentheses.
pub fn check(bytes: &[u8]) -> Said<Body> {
    let n = frame(bytes)?;
    if bytes.len() > length(n) {
        return Err(11);
    }
    let unused = |b: usize| bytes[4 + b / 8] >> (b % 8) & 1;
    if (2 * n..8 * (bytes.len() - 4)).any(|b| unused(b) == 1) {
        return Err(6);
    }
    let body = Body::of(bytes, n);
    if !body.balanced() {
        return Err(7);
    }
    Ok(body)
}

/// Build: "1, 2, 3". It says the record's length.
pub fn build(column: &Column, work: usize, out: usize) -> Said {
    let n = column.counts.len();
    if n > MOST {
        return Err(1);
    }
    if out < length(n) {
        return Err(2);
    }
    if work < n {
        return Err(3);
    }
    Ok(length(n) as u64)
}

/// 8 of an ask: "i > j, or j >= n".
fn in_range(n: usize, i: usize, j: usize) -> Said<()> {
    if i > j || j >= n {
        return Err(8);
    }
    Ok(())
}

/// Fill: "record check, 3".
pub fn fill(checked: &Said<Body>, summary: usize) -> Said {
    checked.as_ref().map_err(|&number| number)?;
    if summary < SLOTS {
        return Err(3);
    }
    Ok(0)
}

/// Plain ask: "record check, 8".
pub fn ask(checked: &Said<Body>, i: usize, j: usize) -> Said {
    let body = checked.as_ref().map_err(|&number| number)?;
    in_range(body.entries(), i, j)?;
    Ok(body.between(i, j) as u64)
}

/// Stand-in: "record check, 2". It says n.
pub fn stand_in(checked: &Said<Body>, column: usize) -> Said {
    let body = checked.as_ref().map_err(|&number| number)?;
    if column < body.entries() {
        return Err(2);
    }
    Ok(body.entries() as u64)
}

/// What a quick ask may say.
#[derive(Clone, Copy, Debug, PartialEq, Eq)]
pub enum Quick {
    /// This and nothing else.
    Only(Said),
    /// Some place from i to j, or 9.
    Some(u64, u64),
}

impl Quick {
    /// Whether it may say this.
    pub fn allows(self, said: Said) -> bool {
        match (self, said) {
            (Quick::Only(only), _) => said == only,
            (Quick::Some(i, j), Ok(place)) => i <= place && place <= j,
            (Quick::Some(..), Err(number)) => number == 9,
        }
    }
}

/// Quick ask: "frame, 11, 3, 8, then an answer or 9". `own` is the summary of the record, where that passes its check.
pub fn quick_ask(
    bytes: &[u8],
    checked: &Said<Body>,
    own: Option<&[u16]>,
    summary: &[u16],
    i: usize,
    j: usize,
) -> Quick {
    let before = || {
        let n = frame(bytes)?;
        if bytes.len() > length(n) {
            return Err(11);
        }
        if summary.len() < SLOTS {
            return Err(3);
        }
        in_range(n, i, j)?;
        Ok(n)
    };
    let n = match before() {
        Ok(n) => n,
        Err(number) => return Quick::Only(Err(number)),
    };
    if own.is_some_and(|own| own == &summary[..SLOTS]) {
        return Quick::Only(ask(checked, i, j));
    }
    let blocks = (2 * n).div_ceil(256);
    let named = |i: usize| summary[768 + i / 256] as usize;
    if named(i) >= blocks || named(j) >= blocks {
        return Quick::Only(Err(9));
    }
    Quick::Some(i as u64, j as u64)
}

/// Find r: "12; 10 for r of 64 or more; then frames from record 0 through r, the first fault deciding; 10 if the drawer
/// ends cleanly before r". It says place and length.
pub fn find(drawer: &[u8], r: usize) -> Said<(usize, usize)> {
    if drawer.len() > DRAWER {
        return Err(12);
    }
    if r >= RECORDS {
        return Err(10);
    }
    let mut place = 0;
    for k in 0..=r {
        if place == drawer.len() {
            return Err(10);
        }
        let size = length(frame(&drawer[place..])?);
        if k == r {
            return Ok((place, size));
        }
        place += size;
    }
    unreachable!("record r is one of those from 0 through r")
}

/// Which drawer the look's part comes from, or the refusal and whether the shared one gave it.
pub fn which(own: &[u8], shared: &[u8], r: usize) -> Result<bool, (u8, bool)> {
    match find(own, r) {
        Ok((place, _)) if own[place + 2..place + 4] != [0, 0] => Ok(false),
        Ok(_) | Err(10) => match find(shared, r) {
            Ok(_) => Ok(true),
            Err(number) => Err((number, true)),
        },
        Err(number) => Err((number, false)),
    }
}

/// Append: "12, 13, 14, 1, 2, 3". It says the new used length.
pub fn append(buffer: &[u8], used: usize, column: &Column, work: usize) -> Said {
    if buffer.len() > DRAWER {
        return Err(12);
    }
    if used > buffer.len() {
        return Err(13);
    }
    let mut place = 0;
    let mut records = 0;
    while place < used {
        match frame(&buffer[place..used]) {
            Ok(n) => place += length(n),
            Err(_) => return Err(13),
        }
        records += 1;
    }
    if records >= RECORDS {
        return Err(14);
    }
    build(column, work, buffer.len() - used).map(|length| used as u64 + length)
}

/// Making a window: "the record check, then 8".
pub fn window(checked: &Said<Body>, first: usize, last: usize) -> Said {
    let body = checked.as_ref().map_err(|&number| number)?;
    in_range(body.entries(), first, last)?;
    Ok(0)
}

/// An ask in a window made for it: "a refused window has no bytes and 0 for first and last, so every ask through it
/// says 5"; else "the plain ask, with 8 also for i below first or j above last".
pub fn window_ask(checked: &Said<Body>, first: usize, last: usize, i: usize, j: usize) -> Said {
    if window(checked, first, last).is_err() {
        return Err(5);
    }
    let place = ask(checked, i, j)?;
    if i < first || j > last {
        return Err(8);
    }
    Ok(place)
}
