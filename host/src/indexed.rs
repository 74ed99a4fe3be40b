use alloc::borrow::Cow;
use alloc::vec;
use core::fmt;
use core::ops::RangeInclusive;

use crate::{Record, Refusal, SUMMARY_LEN, entry, places};

/// A record beside the summary that was filled from it.
///
/// The two can't be parted or exchanged, so a quick ask here answers as the plain ask does and never says 9. It reads a
/// handful of blocks, whatever the column.
///
/// ```
/// use stayharrow::{Record, RecordBuf, Refusal};
///
/// let record = RecordBuf::build(&[4, 2, 4, 2, 9])?;
/// let indexed = record.as_record().index();
/// assert_eq!(indexed.ask(1..=3)?, 1);
/// assert_eq!(indexed.ask(3..=1), Err(Refusal::OutOfRange));
///
/// // the same with the summary in the host's own memory
/// let mut slots = [0; stayharrow::SUMMARY_LEN];
/// let indexed = record.as_record().index_in(&mut slots)?;
/// assert_eq!(indexed.ask(2..=4)?, 3);
/// # Ok::<(), Refusal>(())
/// ```
///
/// Lent numbers can't be changed as long as the index lives:
///
/// ```compile_fail,E0506
/// # use stayharrow::{RecordBuf, Refusal};
/// # let record = RecordBuf::build(&[4, 2, 4, 2, 9])?;
/// let mut slots = [0; stayharrow::SUMMARY_LEN];
/// let indexed = record.as_record().index_in(&mut slots)?;
/// slots[0] = 7;
/// assert_eq!(indexed.ask(2..=4)?, 3);
/// # Ok::<(), Refusal>(())
/// ```
#[derive(Clone)]
pub struct Indexed<'a> {
    record: Record<'a>,
    summary: Cow<'a, [u16]>,
}

impl<'a> Indexed<'a> {
    pub(crate) fn of(record: Record<'a>) -> Indexed<'a> {
        let mut summary = vec![0; SUMMARY_LEN];
        entry::fill(record.as_bytes(), &mut summary)
            .result()
            .expect("a checked record and 896 numbers are not refused");
        Indexed {
            record,
            summary: summary.into(),
        }
    }

    pub(crate) fn lent(record: Record<'a>, summary: &'a mut [u16]) -> Result<Indexed<'a>, Refusal> {
        entry::fill(record.as_bytes(), summary).result()?;
        Ok(Indexed {
            record,
            summary: Cow::Borrowed(&summary[..SUMMARY_LEN]),
        })
    }

    /// The place of the leftmost smallest entry of this stretch of the column.
    ///
    /// # Errors
    ///
    /// 8 where the stretch is empty or ends past the last entry.
    #[inline]
    pub fn ask(&self, stretch: RangeInclusive<usize>) -> Result<usize, Refusal> {
        let (i, j) = places(stretch);
        entry::quick_ask(self.record.as_bytes(), &self.summary, i, j).number()
    }

    /// The record.
    pub fn record(&self) -> Record<'a> {
        self.record
    }

    /// The summary's 896 numbers.
    pub fn summary(&self) -> &[u16] {
        &self.summary
    }
}

impl fmt::Debug for Indexed<'_> {
    fn fmt(&self, f: &mut fmt::Formatter<'_>) -> fmt::Result {
        f.debug_struct("Indexed")
            .field("record", &self.record)
            .finish_non_exhaustive()
    }
}
