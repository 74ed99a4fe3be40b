//! The archive's entry points over arbitrary bytes and numbers, one function each.
//!
//! The types of this crate are what a host wants to use. This module is for those who want the entry points as they
//! are: any input may be given, in any state, and the answer is the archive's own 64-bit word.
//!
//! ```
//! use stayharrow::{Refusal, entry};
//!
//! let mut out = [0xEE; 8];
//! let mut work = [0; 5];
//! assert_eq!(entry::build(&[4, 2, 4, 2, 9], &mut work, &mut out).result(), Ok(6));
//! assert_eq!(out, *b"RM\x05\x00\x33\x01\xEE\xEE");
//! assert_eq!(entry::check(&out).result(), Err(Refusal::BytesAfter));
//! assert_eq!(entry::check(&out[..6]).result(), Ok(0));
//! ```

use crate::{Origin, Refusal, sys};

/// An entry point's answer, as the archive gives it.
///
/// Bit 63 clear: the answer. Bit 63 set: a refusal; bits 0 to 7 are its number, bits 8 to 39 its place where it has one
/// and else 0, bit 40 the drawer that gave it ([`which`] alone: 0 own, 1 shared).
#[derive(Clone, Copy, Debug, PartialEq, Eq, Hash)]
#[repr(transparent)]
#[must_use]
pub struct Answer(u64);

impl Answer {
    /// The word itself.
    pub const fn bits(self) -> u64 {
        self.0
    }

    /// The number that the entry point's rule names, or the refusal.
    ///
    /// # Panics
    ///
    /// Where the refusal's number is none of 1 to 14: then the archive is of another version than this crate.
    #[inline]
    pub fn result(self) -> Result<u64, Refusal> {
        if self.0 >> 63 == 0 {
            return Ok(self.0);
        }
        Err(self.refusal())
    }

    /// The drawer that gave a refusal.
    pub(crate) const fn origin(self) -> Origin {
        if self.0 >> 40 & 1 == 0 {
            Origin::Own
        } else {
            Origin::Shared
        }
    }

    #[cold]
    fn refusal(self) -> Refusal {
        let number = self.0 as u8;
        match Refusal::from_number(number) {
            Some(refusal) => refusal,
            None => panic!(
                "the archive gave a refusal of number {number}, which this crate does not know"
            ),
        }
    }

    /// The answer as a place, a length or a count. The archive is for machines of 64 bits, so it fits.
    #[inline]
    pub(crate) fn number(self) -> Result<usize, Refusal> {
        self.result().map(|number| number as usize)
    }
}

/// Writes the column's record at the start of `out` and answers its length; the first n of the `work` numbers end at 0.
/// Refusals, in the order of the checks: 1, 2, 3.
#[inline]
pub fn build(column: &[u32], work: &mut [u16], out: &mut [u8]) -> Answer {
    Answer(sys::build(column, work, out))
}

/// Answers 0 for a record that is whole, clean and balanced. Refusals: 5, 4, 1, 5, 11, 6, 7.
#[inline]
pub fn check(bytes: &[u8]) -> Answer {
    Answer(sys::check(bytes))
}

/// Fills the first 896 numbers of the summary from the record and answers 0. Refusals: check's, 3.
#[inline]
pub fn fill(record: &[u8], summary: &mut [u16]) -> Answer {
    Answer(sys::fill(record, summary))
}

/// Answers the leftmost smallest entry from i to j, both counted in. Refusals: check's, 8.
#[inline]
pub fn ask(record: &[u8], i: usize, j: usize) -> Answer {
    Answer(sys::ask(record, i, j))
}

/// The same by record and summary. Refusals: 5, 4, 1, 5, 11, 3, 8, 9.
///
/// Where the record passes its check and the summary is the one filled from it, the answer is [`ask`]'s, and never 9.
/// Otherwise it is some place from i to j, or 9.
#[inline]
pub fn quick_ask(record: &[u8], summary: &[u16], i: usize, j: usize) -> Answer {
    Answer(sys::quick_ask(record, summary, i, j))
}

/// Writes a column that has this record into the first n numbers and answers n. Refusals: check's, 2.
#[inline]
pub fn stand_in(record: &[u8], column: &mut [u32]) -> Answer {
    Answer(sys::stand_in(record, column))
}

/// Answers place * 2^32 + length of record r. Refusals: 12, 10, then 5, 4, 1, 5 of each record up to r, 10.
#[inline]
pub fn find(drawer: &[u8], r: usize) -> Answer {
    Answer(sys::find(drawer, r))
}

/// Answers which drawer record r comes from: 0 the own, 1 the shared one. Refusals: find's, with the drawer's bit.
#[inline]
pub fn which(own: &[u8], shared: &[u8], r: usize) -> Answer {
    Answer(sys::which(own, shared, r))
}

/// Writes the column's record behind the used bytes and answers the new used length; the first n of the `work` numbers
/// end at 0. Refusals: 12, 13, 14, 1, 2, 3.
#[inline]
pub fn append(buffer: &mut [u8], used: usize, column: &[u32], work: &mut [u16]) -> Answer {
    Answer(sys::append(buffer, used, column, work))
}

/// Answers 0 where a window from `first` to `last` on this record is not refused. Refusals: check's, 8.
#[inline]
pub fn window(record: &[u8], first: usize, last: usize) -> Answer {
    Answer(sys::window(record, first, last))
}

/// Makes a window and asks in it. A refused window has no bytes, so an ask in it says 5. Refusals: 5, 8.
#[inline]
pub fn window_ask(record: &[u8], first: usize, last: usize, i: usize, j: usize) -> Answer {
    Answer(sys::window_ask(record, first, last, i, j))
}
