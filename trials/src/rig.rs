//! The rig calls an entry point, holds the answer and all lent memory to the rules, and counts.

use std::fmt::Debug;

use stayharrow::entry;

use crate::lent::{Element, Lent};
use crate::rules::{self, Body, Column, Quick, Said};

/// The archive's entry points.
#[derive(Clone, Copy, Debug, PartialEq, Eq)]
pub enum Entry {
    /// `stayharrow_build`
    Build,
    /// `stayharrow_check`
    Check,
    /// `stayharrow_fill`
    Fill,
    /// `stayharrow_ask`
    Ask,
    /// `stayharrow_quick_ask`
    QuickAsk,
    /// `stayharrow_stand_in`
    StandIn,
    /// `stayharrow_find`
    Find,
    /// `stayharrow_which`
    Which,
    /// `stayharrow_append`
    Append,
    /// `stayharrow_window`
    Window,
    /// `stayharrow_window_ask`
    WindowAsk,
}

impl Entry {
    /// All of them.
    pub const ALL: [Entry; 11] = [
        Entry::Build,
        Entry::Check,
        Entry::Fill,
        Entry::Ask,
        Entry::QuickAsk,
        Entry::StandIn,
        Entry::Find,
        Entry::Which,
        Entry::Append,
        Entry::Window,
        Entry::WindowAsk,
    ];

    /// Its name in the archive, less the prefix.
    pub fn name(self) -> &'static str {
        match self {
            Entry::Build => "build",
            Entry::Check => "check",
            Entry::Fill => "fill",
            Entry::Ask => "ask",
            Entry::QuickAsk => "quick_ask",
            Entry::StandIn => "stand_in",
            Entry::Find => "find",
            Entry::Which => "which",
            Entry::Append => "append",
            Entry::Window => "window",
            Entry::WindowAsk => "window_ask",
        }
    }

    /// The refusals that its rule names.
    pub fn refusals(self) -> &'static [u8] {
        match self {
            Entry::Build => &[1, 2, 3],
            Entry::Check => &[1, 4, 5, 6, 7, 11],
            Entry::Fill => &[1, 3, 4, 5, 6, 7, 11],
            Entry::Ask | Entry::Window => &[1, 4, 5, 6, 7, 8, 11],
            Entry::QuickAsk => &[1, 3, 4, 5, 8, 9, 11],
            Entry::StandIn => &[1, 2, 4, 5, 6, 7, 11],
            Entry::Find | Entry::Which => &[1, 4, 5, 10, 12],
            Entry::Append => &[1, 2, 3, 12, 13, 14],
            Entry::WindowAsk => &[5, 8],
        }
    }
}

/// The functions that are tried, one for each entry point: the archive's, or others that should answer as they do.
#[derive(Clone, Copy, Debug)]
pub struct Calls {
    /// Build.
    pub build: fn(&[u32], &mut [u16], &mut [u8]) -> u64,
    /// The record check.
    pub check: fn(&[u8]) -> u64,
    /// Fill.
    pub fill: fn(&[u8], &mut [u16]) -> u64,
    /// The plain ask.
    pub ask: fn(&[u8], usize, usize) -> u64,
    /// The quick ask.
    pub quick_ask: fn(&[u8], &[u16], usize, usize) -> u64,
    /// The stand-in.
    pub stand_in: fn(&[u8], &mut [u32]) -> u64,
    /// Find.
    pub find: fn(&[u8], usize) -> u64,
    /// Which.
    pub which: fn(&[u8], &[u8], usize) -> u64,
    /// Append.
    pub append: fn(&mut [u8], usize, &[u32], &mut [u16]) -> u64,
    /// The refusal of a window.
    pub window: fn(&[u8], usize, usize) -> u64,
    /// An ask in a window.
    pub window_ask: fn(&[u8], usize, usize, usize, usize) -> u64,
}

/// The archive's own.
pub const ARCHIVE: Calls = Calls {
    build: |column, work, out| entry::build(column, work, out).bits(),
    check: |bytes| entry::check(bytes).bits(),
    fill: |record, summary| entry::fill(record, summary).bits(),
    ask: |record, i, j| entry::ask(record, i, j).bits(),
    quick_ask: |record, summary, i, j| entry::quick_ask(record, summary, i, j).bits(),
    stand_in: |record, column| entry::stand_in(record, column).bits(),
    find: |drawer, r| entry::find(drawer, r).bits(),
    which: |own, shared, r| entry::which(own, shared, r).bits(),
    append: |buffer, used, column, work| entry::append(buffer, used, column, work).bits(),
    window: |record, first, last| entry::window(record, first, last).bits(),
    window_ask: |record, first, last, i, j| entry::window_ask(record, first, last, i, j).bits(),
};

/// A call whose answer or memory is not what the rules say.
#[derive(Clone, Debug)]
pub struct Difference(pub String);

/// What every call gives: nothing, or the difference.
pub type Trial = Result<(), Difference>;

/// Bytes, and what the record check says of them; the summary where they pass it.
#[derive(Debug)]
pub struct Bytes {
    /// The bytes.
    pub bytes: Vec<u8>,
    /// What the check says.
    pub checked: Said<Body>,
    /// The own summary.
    pub summary: Option<Vec<u16>>,
}

impl Bytes {
    /// The bytes, checked by the rules.
    pub fn new(bytes: Vec<u8>) -> Bytes {
        let checked = rules::check(&bytes);
        let summary = checked.as_ref().ok().map(Body::summary);
        Bytes {
            bytes,
            checked,
            summary,
        }
    }

    /// n as the head says it, 0 where there is none.
    pub fn entries(&self) -> usize {
        rules::frame(&self.bytes).unwrap_or(0)
    }
}

/// The lent memory, used again from call to call, and the counts.
#[derive(Debug)]
pub struct Rig {
    calls: Calls,
    case: u64,
    bytes: Lent<u8>,
    other: Lent<u8>,
    counts: Lent<u32>,
    numbers: Lent<u16>,
    /// For each entry point, how often it answered (at 0) and how often it gave each refusal.
    pub tally: [[u64; 15]; 11],
    /// How often a quick ask over a foreign summary gave a place.
    pub foreign_places: u64,
    /// How often the shared drawer gave the refusal of a look.
    pub shared_refusals: u64,
    /// How often a look ended in the shared drawer.
    pub shared: u64,
}

/// The archive's word for what is said.
fn word(said: Said, shared: bool) -> u64 {
    match said {
        Ok(number) => number,
        Err(number) => 1 << 63 | u64::from(shared) << 40 | u64::from(number),
    }
}

fn short<T: Debug>(elements: &[T]) -> String {
    if elements.len() <= 64 {
        return format!("{elements:?}");
    }
    format!("{:?}.. ({} in all)", &elements[..64], elements.len())
}

impl Rig {
    /// A rig that tries these functions.
    pub fn new(calls: Calls) -> Rig {
        Rig {
            calls,
            case: 0,
            bytes: Lent::default(),
            other: Lent::default(),
            counts: Lent::default(),
            numbers: Lent::default(),
            tally: [[0; 15]; 11],
            foreign_places: 0,
            shared_refusals: 0,
            shared: 0,
        }
    }

    /// How many calls there were.
    pub fn calls(&self) -> u64 {
        self.tally.iter().flatten().sum()
    }

    fn next(&mut self) -> u64 {
        self.case = self.case.wrapping_add(1);
        self.case
    }

    fn count(&mut self, entry: Entry, answer: u64) {
        let outcome = if answer >> 63 == 0 { 0 } else { answer as u8 };
        if let Some(count) = self.tally[entry as usize].get_mut(outcome as usize) {
            *count += 1;
        }
    }

    fn answered(
        &mut self,
        entry: Entry,
        answer: u64,
        said: Said,
        case: impl FnOnce() -> String,
    ) -> Trial {
        self.count(entry, answer);
        if answer == word(said, false) {
            return Ok(());
        }
        Err(differs(entry, answer, &format!("{said:?}"), case()))
    }

    /// Build, into memory that holds something already.
    pub fn build(&mut self, column: &Column, work: &[u16], out: &[u8]) -> Trial {
        let case = self.next();
        self.counts.lay(&column.counts, case);
        self.numbers.lay(work, case);
        self.bytes.lay(out, case);
        let said = rules::build(column, work.len(), out.len());
        if said.is_ok() {
            self.bytes.expect(&column.record);
            self.numbers.expect(&vec![0; column.counts.len()]);
        }
        let answer = (self.calls.build)(
            self.counts.slice(),
            self.numbers.slice_mut(),
            self.bytes.slice_mut(),
        );
        let show = || {
            format!(
                "column {}, work {}, out {}",
                short(&column.counts),
                work.len(),
                out.len()
            )
        };
        self.answered(Entry::Build, answer, said, show)?;
        kept(Entry::Build, "the column", &self.counts, show)?;
        kept(Entry::Build, "the work", &self.numbers, show)?;
        kept(Entry::Build, "the output", &self.bytes, show)
    }

    /// The record check.
    pub fn check(&mut self, bytes: &Bytes) -> Trial {
        let case = self.next();
        self.bytes.lay(&bytes.bytes, case);
        let said = bytes.checked.as_ref().map(|_| 0).map_err(|&number| number);
        let answer = (self.calls.check)(self.bytes.slice());
        let show = || format!("bytes {}", short(&bytes.bytes));
        self.answered(Entry::Check, answer, said, show)?;
        kept(Entry::Check, "the bytes", &self.bytes, show)
    }

    /// Fill, into numbers that hold something already.
    pub fn fill(&mut self, bytes: &Bytes, summary: &[u16]) -> Trial {
        let case = self.next();
        self.bytes.lay(&bytes.bytes, case);
        self.numbers.lay(summary, case);
        let said = rules::fill(&bytes.checked, summary.len());
        if said.is_ok() {
            let own = bytes
                .summary
                .as_ref()
                .expect("an accepted record has a summary");
            self.numbers.expect(own);
        }
        let answer = (self.calls.fill)(self.bytes.slice(), self.numbers.slice_mut());
        let show = || format!("bytes {}, summary {}", short(&bytes.bytes), summary.len());
        self.answered(Entry::Fill, answer, said, show)?;
        kept(Entry::Fill, "the bytes", &self.bytes, show)?;
        kept(Entry::Fill, "the summary", &self.numbers, show)
    }

    /// The plain ask. `column` is the column that the record was built from, where there is one: then the answer must
    /// also be the leftmost smallest of its own entries.
    pub fn ask(&mut self, bytes: &Bytes, column: Option<&[u32]>, i: usize, j: usize) -> Trial {
        let case = self.next();
        self.bytes.lay(&bytes.bytes, case);
        let said = rules::ask(&bytes.checked, i, j);
        if let (Some(column), Ok(place)) = (column, said) {
            let own = rules::leftmost_smallest(column, i, j) as u64;
            assert_eq!(
                own, place,
                "the rules themselves differ: column {column:?}, {i}..={j}"
            );
        }
        let answer = (self.calls.ask)(self.bytes.slice(), i, j);
        let show = || format!("bytes {}, i {i}, j {j}", short(&bytes.bytes));
        self.answered(Entry::Ask, answer, said, show)?;
        kept(Entry::Ask, "the bytes", &self.bytes, show)
    }

    /// The quick ask, over the own summary or any other numbers.
    pub fn quick_ask(&mut self, bytes: &Bytes, summary: &[u16], i: usize, j: usize) -> Trial {
        let case = self.next();
        self.bytes.lay(&bytes.bytes, case);
        self.numbers.lay(summary, case);
        let own = bytes.summary.as_deref();
        let may = rules::quick_ask(&bytes.bytes, &bytes.checked, own, summary, i, j);
        let answer = (self.calls.quick_ask)(self.bytes.slice(), self.numbers.slice(), i, j);
        let show = || {
            format!(
                "bytes {}, summary {}, i {i}, j {j}",
                short(&bytes.bytes),
                short(summary)
            )
        };
        self.count(Entry::QuickAsk, answer);
        let said = if answer >> 63 == 0 {
            Ok(answer)
        } else {
            Err(answer as u8)
        };
        if !may.allows(said) || answer != word(said, false) {
            return Err(differs(
                Entry::QuickAsk,
                answer,
                &format!("{may:?}"),
                show(),
            ));
        }
        if matches!(may, Quick::Some(..)) && said.is_ok() {
            self.foreign_places += 1;
        }
        kept(Entry::QuickAsk, "the bytes", &self.bytes, show)?;
        kept(Entry::QuickAsk, "the summary", &self.numbers, show)
    }

    /// The stand-in, into memory that holds something already.
    pub fn stand_in(&mut self, bytes: &Bytes, column: &[u32]) -> Trial {
        let case = self.next();
        self.bytes.lay(&bytes.bytes, case);
        self.counts.lay(column, case);
        let said = rules::stand_in(&bytes.checked, column.len());
        if let (Ok(_), Ok(body)) = (said, &bytes.checked) {
            self.counts.expect(&body.stand_in());
        }
        let answer = (self.calls.stand_in)(self.bytes.slice(), self.counts.slice_mut());
        let show = || format!("bytes {}, column {}", short(&bytes.bytes), column.len());
        self.answered(Entry::StandIn, answer, said, show)?;
        kept(Entry::StandIn, "the bytes", &self.bytes, show)?;
        kept(Entry::StandIn, "the column", &self.counts, show)
    }

    /// Find.
    pub fn find(&mut self, drawer: &[u8], r: usize) -> Trial {
        let case = self.next();
        self.bytes.lay(drawer, case);
        let said =
            rules::find(drawer, r).map(|(place, length)| (place as u64) << 32 | length as u64);
        let answer = (self.calls.find)(self.bytes.slice(), r);
        let show = || format!("drawer {}, r {r}", short(drawer));
        self.answered(Entry::Find, answer, said, show)?;
        kept(Entry::Find, "the drawer", &self.bytes, show)
    }

    /// Which.
    pub fn which(&mut self, own: &[u8], shared: &[u8], r: usize) -> Trial {
        let case = self.next();
        self.bytes.lay(own, case);
        self.other.lay(shared, case);
        let says = rules::which(own, shared, r);
        let answer = (self.calls.which)(self.bytes.slice(), self.other.slice(), r);
        let show = || format!("own {}, shared {}, r {r}", short(own), short(shared));
        self.count(Entry::Which, answer);
        let should = match says {
            Ok(shared) => u64::from(shared),
            Err((number, shared)) => word(Err(number), shared),
        };
        if answer != should {
            return Err(differs(Entry::Which, answer, &format!("{says:?}"), show()));
        }
        self.shared += u64::from(says == Ok(true));
        self.shared_refusals += u64::from(matches!(says, Err((_, true))));
        kept(Entry::Which, "the own drawer", &self.bytes, show)?;
        kept(Entry::Which, "the shared drawer", &self.other, show)
    }

    /// Append, into a buffer and work memory that hold something already.
    pub fn append(&mut self, buffer: &[u8], used: usize, column: &Column, work: &[u16]) -> Trial {
        let case = self.next();
        self.bytes.lay(buffer, case);
        self.counts.lay(&column.counts, case);
        self.numbers.lay(work, case);
        let said = rules::append(buffer, used, column, work.len());
        if said.is_ok() {
            self.bytes.expect_at(used, &column.record);
            self.numbers.expect(&vec![0; column.counts.len()]);
        }
        let answer = (self.calls.append)(
            self.bytes.slice_mut(),
            used,
            self.counts.slice(),
            self.numbers.slice_mut(),
        );
        let show = || {
            let column = short(&column.counts);
            format!(
                "buffer {}, used {used}, column {column}, work {}",
                short(buffer),
                work.len()
            )
        };
        self.answered(Entry::Append, answer, said, show)?;
        kept(Entry::Append, "the buffer", &self.bytes, show)?;
        kept(Entry::Append, "the column", &self.counts, show)?;
        kept(Entry::Append, "the work", &self.numbers, show)
    }

    /// The refusal of a window.
    pub fn window(&mut self, bytes: &Bytes, first: usize, last: usize) -> Trial {
        let case = self.next();
        self.bytes.lay(&bytes.bytes, case);
        let said = rules::window(&bytes.checked, first, last);
        let answer = (self.calls.window)(self.bytes.slice(), first, last);
        let show = || format!("bytes {}, first {first}, last {last}", short(&bytes.bytes));
        self.answered(Entry::Window, answer, said, show)?;
        kept(Entry::Window, "the bytes", &self.bytes, show)
    }

    /// An ask in a window.
    pub fn window_ask(&mut self, bytes: &Bytes, [first, last, i, j]: [usize; 4]) -> Trial {
        let case = self.next();
        self.bytes.lay(&bytes.bytes, case);
        let said = rules::window_ask(&bytes.checked, first, last, i, j);
        let answer = (self.calls.window_ask)(self.bytes.slice(), first, last, i, j);
        let show = || {
            format!(
                "bytes {}, first {first}, last {last}, i {i}, j {j}",
                short(&bytes.bytes)
            )
        };
        self.answered(Entry::WindowAsk, answer, said, show)?;
        kept(Entry::WindowAsk, "the bytes", &self.bytes, show)
    }
}

fn differs(entry: Entry, answer: u64, should: &str, case: String) -> Difference {
    Difference(format!(
        "{}: the archive says {:#x}, the rules say {should}; {case}",
        entry.name(),
        answer
    ))
}

fn kept<T: Element>(entry: Entry, what: &str, lent: &Lent<T>, case: impl Fn() -> String) -> Trial {
    let Some((place, is, should)) = lent.difference() else {
        return Ok(());
    };
    Err(Difference(format!(
        "{}: {what} has {is:?} at place {place} and should have {should:?}; {}",
        entry.name(),
        case()
    )))
}
