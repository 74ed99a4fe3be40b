use alloc::boxed::Box;
use alloc::vec;
use alloc::vec::Vec;
use core::fmt;
use core::ops::RangeInclusive;

use crate::{Indexed, MAX_ENTRIES, Refusal, Window, entry, places};

/// Bytes that passed the record check: the record of some column, and of its shape alone.
///
/// A `Record` borrows the bytes, as a `&str` does, and is as cheap to copy. Equal records have equal bytes: two columns
/// of one length have the same record exactly when every question has the same answer in both.
///
/// ```
/// use stayharrow::{Record, Refusal};
///
/// let record = Record::new(b"RM\x05\x00\x33\x01")?; // of 4 2 4 2 9, and of many others
/// assert_eq!(record.entries(), 5);
/// assert_eq!(record.ask(0..=4)?, 1);
/// assert_eq!(record.ask(2..=4)?, 3);
/// assert_eq!(record.ask(2..=5), Err(Refusal::OutOfRange));
/// # Ok::<(), Refusal>(())
/// ```
#[derive(Clone, Copy, PartialEq, Eq, Hash)]
pub struct Record<'a> {
    bytes: &'a [u8],
}

impl<'a> Record<'a> {
    /// Checks the bytes, each of them once.
    ///
    /// # Errors
    ///
    /// In this order: 5 for fewer than four bytes, 4, 1, 5 for the rest, 11, 6, 7.
    pub fn new(bytes: &'a [u8]) -> Result<Record<'a>, Refusal> {
        entry::check(bytes).result()?;
        Ok(Record { bytes })
    }

    /// Builds the column's record at the start of lent memory. [`RecordBuf::build`] does so in memory of its own.
    ///
    /// The output needs [`record_len`] bytes, and keeps what is behind them; the work memory needs a number for each
    /// entry, and these end at 0. The time is in proportion to the column.
    ///
    /// ```
    /// use stayharrow::{Record, Refusal};
    ///
    /// let (mut work, mut out) = ([0; 8], [0; 8]);
    /// let record = Record::build(&[3, 1, 2], &mut work, &mut out)?;
    /// assert_eq!(record.as_bytes(), b"RM\x03\x00\x13");
    /// # Ok::<(), Refusal>(())
    /// ```
    ///
    /// # Errors
    ///
    /// In this order: 1, 2, 3. Nothing lent is changed then.
    pub fn build(
        column: &[u32],
        work: &mut [u16],
        out: &'a mut [u8],
    ) -> Result<Record<'a>, Refusal> {
        let length = entry::build(column, work, out).number()?;
        Ok(Record {
            bytes: &out[..length],
        })
    }

    /// A record of bytes that an entry point wrote.
    pub(crate) fn written(bytes: &'a [u8]) -> Record<'a> {
        Record { bytes }
    }

    /// The bytes.
    pub fn as_bytes(self) -> &'a [u8] {
        self.bytes
    }

    /// How many entries the column has.
    pub fn entries(self) -> usize {
        usize::from(u16::from_le_bytes([self.bytes[2], self.bytes[3]]))
    }

    /// The place of the leftmost smallest entry of this stretch of the column.
    ///
    /// It reads the record as a whole. Whoever asks more than a few times makes an [index](Record::index) first.
    ///
    /// # Errors
    ///
    /// 8 where the stretch is empty or ends past the last entry.
    pub fn ask(self, stretch: RangeInclusive<usize>) -> Result<usize, Refusal> {
        let (i, j) = places(stretch);
        entry::ask(self.bytes, i, j).number()
    }

    /// The record beside its summary, which makes asking quick. One pass over the record.
    ///
    /// ```
    /// use stayharrow::{RecordBuf, Refusal};
    ///
    /// let column: Vec<u32> = (0..1000).map(|k| (k * 7919) % 1009).collect();
    /// let record = RecordBuf::build(&column)?;
    /// let indexed = record.as_record().index();
    /// let cheapest = indexed.ask(100..=900)?;
    /// assert_eq!(column[100..=900].iter().min(), Some(&column[cheapest]));
    /// # Ok::<(), Refusal>(())
    /// ```
    pub fn index(self) -> Indexed<'a> {
        Indexed::of(self)
    }

    /// The same with the summary in lent memory: its first 896 numbers are filled.
    ///
    /// # Errors
    ///
    /// 3 where there are fewer.
    pub fn index_in(self, summary: &'a mut [u16]) -> Result<Indexed<'a>, Refusal> {
        Indexed::lent(self, summary)
    }

    /// A quick ask over numbers that somebody else filled.
    ///
    /// If they are this record's summary it answers as [`Record::ask`]. If they are not, it gives some place of the
    /// stretch, or says 9. An [`Indexed`] has its own summary and leaves no doubt.
    ///
    /// # Errors
    ///
    /// In this order: 3 for fewer than 896 numbers, 8, 9.
    pub fn quick_ask(
        self,
        summary: &[u16],
        stretch: RangeInclusive<usize>,
    ) -> Result<usize, Refusal> {
        let (i, j) = places(stretch);
        entry::quick_ask(self.bytes, summary, i, j).number()
    }

    /// Writes a column that has this record into lent memory: all that a seller may know of a customer's column.
    ///
    /// # Errors
    ///
    /// 2 where there is less room than entries.
    pub fn stand_in(self, column: &mut [u32]) -> Result<&mut [u32], Refusal> {
        let entries = entry::stand_in(self.bytes, column).number()?;
        Ok(&mut column[..entries])
    }

    /// The same in memory of its own.
    ///
    /// ```
    /// use stayharrow::{RecordBuf, Refusal};
    ///
    /// let record = RecordBuf::build(&[4, 2, 4, 2, 9])?;
    /// let column = record.as_record().to_stand_in();
    /// assert_eq!(column, [1, 0, 1, 0, 0]);
    /// assert_eq!(RecordBuf::build(&column)?, record);
    /// # Ok::<(), Refusal>(())
    /// ```
    pub fn to_stand_in(self) -> Vec<u32> {
        let mut column = vec![0; self.entries()];
        self.stand_in(&mut column)
            .expect("a checked record has a stand-in of as many entries");
        column
    }

    /// A window for a pass that may ask about this stretch alone.
    ///
    /// # Errors
    ///
    /// 8 where the stretch is empty or ends past the last entry.
    pub fn window(self, stretch: RangeInclusive<usize>) -> Result<Window<'a>, Refusal> {
        Window::new(self.bytes, stretch)
    }
}

impl<'a> TryFrom<&'a [u8]> for Record<'a> {
    type Error = Refusal;

    fn try_from(bytes: &'a [u8]) -> Result<Record<'a>, Refusal> {
        Record::new(bytes)
    }
}

impl AsRef<[u8]> for Record<'_> {
    fn as_ref(&self) -> &[u8] {
        self.bytes
    }
}

/// The parentheses, as the customer writes them.
///
/// ```
/// use stayharrow::Record;
///
/// let record = Record::new(b"RM\x05\x00\x33\x01").unwrap();
/// assert_eq!(record.to_string(), "(())(())()");
/// ```
impl fmt::Display for Record<'_> {
    fn fmt(&self, f: &mut fmt::Formatter<'_>) -> fmt::Result {
        use core::fmt::Write;
        (0..2 * self.entries()).try_for_each(|b| {
            let opens = self.bytes[4 + b / 8] >> (b % 8) & 1 == 1;
            f.write_char(if opens { '(' } else { ')' })
        })
    }
}

impl fmt::Debug for Record<'_> {
    fn fmt(&self, f: &mut fmt::Formatter<'_>) -> fmt::Result {
        f.debug_struct("Record")
            .field("entries", &self.entries())
            .finish_non_exhaustive()
    }
}

/// How many bytes the record of a column of so many entries has: a head of four, and two bits an entry.
///
/// ```
/// assert_eq!(stayharrow::record_len(5), 6);
/// assert_eq!(stayharrow::record_len(stayharrow::MAX_ENTRIES), stayharrow::MAX_RECORD);
/// ```
pub const fn record_len(entries: usize) -> usize {
    4 + entries.div_ceil(4)
}

/// A record in memory of its own, as a `String` is to a `&str`.
#[derive(Clone, PartialEq, Eq, Hash)]
pub struct RecordBuf {
    bytes: Box<[u8]>,
}

impl RecordBuf {
    /// Builds the column's record. The time is in proportion to the column.
    ///
    /// ```
    /// use stayharrow::{RecordBuf, Refusal};
    ///
    /// let record = RecordBuf::build(&[4, 2, 4, 2, 9])?;
    /// assert_eq!(record.as_bytes(), b"RM\x05\x00\x33\x01");
    /// assert_eq!(RecordBuf::build(&vec![7; 32_769]), Err(Refusal::TooManyEntries));
    /// # Ok::<(), Refusal>(())
    /// ```
    ///
    /// # Errors
    ///
    /// 1 where the column has more than 32,768 entries.
    pub fn build(column: &[u32]) -> Result<RecordBuf, Refusal> {
        let entries = column.len().min(MAX_ENTRIES);
        let mut work = vec![0; entries];
        let mut bytes = vec![0; record_len(entries)].into_boxed_slice();
        Record::build(column, &mut work, &mut bytes)?;
        Ok(RecordBuf { bytes })
    }

    /// Checks the bytes and keeps them.
    ///
    /// # Errors
    ///
    /// As for [`Record::new`].
    pub fn from_bytes(bytes: impl Into<Box<[u8]>>) -> Result<RecordBuf, Refusal> {
        let bytes = bytes.into();
        Record::new(&bytes)?;
        Ok(RecordBuf { bytes })
    }

    /// The record, borrowed.
    pub fn as_record(&self) -> Record<'_> {
        Record::written(&self.bytes)
    }

    /// The bytes.
    pub fn as_bytes(&self) -> &[u8] {
        &self.bytes
    }

    /// The bytes, handed over.
    pub fn into_bytes(self) -> Box<[u8]> {
        self.bytes
    }
}

impl From<Record<'_>> for RecordBuf {
    fn from(record: Record<'_>) -> RecordBuf {
        RecordBuf {
            bytes: record.bytes.into(),
        }
    }
}

impl AsRef<[u8]> for RecordBuf {
    fn as_ref(&self) -> &[u8] {
        &self.bytes
    }
}

impl fmt::Display for RecordBuf {
    fn fmt(&self, f: &mut fmt::Formatter<'_>) -> fmt::Result {
        fmt::Display::fmt(&self.as_record(), f)
    }
}

impl fmt::Debug for RecordBuf {
    fn fmt(&self, f: &mut fmt::Formatter<'_>) -> fmt::Result {
        f.debug_struct("RecordBuf")
            .field("entries", &self.as_record().entries())
            .finish_non_exhaustive()
    }
}
