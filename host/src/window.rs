use core::fmt;
use core::ops::RangeInclusive;

use crate::{Refusal, entry, places};

/// A record for a pass that may ask about one stretch of its entries.
///
/// The record's bytes are inside and can't be got out: what a pass holds is the right to ask from `first` to `last`.
///
/// ```
/// use stayharrow::{RecordBuf, Refusal};
///
/// let record = RecordBuf::build(&[4, 2, 4, 2, 9])?;
/// let window = record.as_record().window(2..=4)?;
/// assert_eq!(window.ask(2..=4)?, 3);
/// assert_eq!(window.ask(1..=3), Err(Refusal::OutOfRange));
/// # Ok::<(), Refusal>(())
/// ```
#[derive(Clone, Copy, PartialEq, Eq, Hash)]
pub struct Window<'a> {
    bytes: &'a [u8],
    first: usize,
    last: usize,
}

impl<'a> Window<'a> {
    /// A window on a record.
    ///
    /// # Errors
    ///
    /// As for [`Record::new`](crate::Record::new), then 8 where the stretch is empty or ends past the last entry.
    pub fn new(bytes: &'a [u8], stretch: RangeInclusive<usize>) -> Result<Window<'a>, Refusal> {
        let (first, last) = places(stretch);
        entry::window(bytes, first, last).result()?;
        Ok(Window { bytes, first, last })
    }

    /// The first entry that may be asked about.
    pub fn first(self) -> usize {
        self.first
    }

    /// The last entry that may be asked about.
    pub fn last(self) -> usize {
        self.last
    }

    /// The place of the leftmost smallest entry of this stretch of the column. It reads the record as a whole.
    ///
    /// # Errors
    ///
    /// 8 where the stretch is empty or not inside the window.
    pub fn ask(self, stretch: RangeInclusive<usize>) -> Result<usize, Refusal> {
        let (i, j) = places(stretch);
        entry::window_ask(self.bytes, self.first, self.last, i, j).number()
    }
}

impl fmt::Debug for Window<'_> {
    fn fmt(&self, f: &mut fmt::Formatter<'_>) -> fmt::Result {
        f.debug_struct("Window")
            .field("first", &self.first)
            .field("last", &self.last)
            .finish_non_exhaustive()
    }
}
