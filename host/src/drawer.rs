use core::error::Error;
use core::fmt;
use core::ops::Range;

use crate::{MAX_DRAWER, Record, Refusal, entry};

/// Records one after another with nothing between, in lent bytes.
///
/// A drawer comes from elsewhere and is believed in nothing. [`Drawer::find`] walks the records' heads and judges each
/// one that it passes; the bits of a record are judged where it is [taken out](Drawer::record).
///
/// ```
/// use stayharrow::{Drawer, Refusal};
///
/// let drawer = Drawer::new(b"RM\x05\x00\x33\x01RM\x01\x00\x02")?;
/// assert_eq!(drawer.find(1)?, 6..11);
/// assert_eq!(drawer.record(0)?.to_string(), "(())(())()");
/// assert_eq!(drawer.record(1), Err(Refusal::Unbalanced));
/// assert_eq!(drawer.record(2), Err(Refusal::NoRecord));
/// assert_eq!(drawer.iter().count(), 2);
/// # Ok::<(), Refusal>(())
/// ```
#[derive(Clone, Copy, PartialEq, Eq, Hash)]
pub struct Drawer<'a> {
    bytes: &'a [u8],
}

impl<'a> Drawer<'a> {
    /// A drawer of these bytes; no bytes at all is a drawer of no records.
    ///
    /// # Errors
    ///
    /// 12 for more than 65,536 bytes.
    pub fn new(bytes: &'a [u8]) -> Result<Drawer<'a>, Refusal> {
        if MAX_DRAWER < bytes.len() {
            return Err(Refusal::DrawerLong);
        }
        Ok(Drawer { bytes })
    }

    /// The bytes.
    pub fn as_bytes(self) -> &'a [u8] {
        self.bytes
    }

    /// Where record r stands.
    ///
    /// # Errors
    ///
    /// 10 for r of 64 or more; 5, 4 or 1 for the first faulty head up to record r; 10 where the drawer ends before it.
    pub fn find(self, r: usize) -> Result<Range<usize>, Refusal> {
        let found = entry::find(self.bytes, r).number()?;
        let place = found >> 32;
        Ok(place..place + (found & 0xFFFF_FFFF))
    }

    /// The hand-out: exactly the bytes of record r, whose bits are not judged.
    ///
    /// # Errors
    ///
    /// As for [`Drawer::find`].
    pub fn hand_out(self, r: usize) -> Result<&'a [u8], Refusal> {
        Ok(&self.bytes[self.find(r)?])
    }

    /// Record r, checked.
    ///
    /// # Errors
    ///
    /// As for [`Drawer::find`], then as for [`Record::new`].
    pub fn record(self, r: usize) -> Result<Record<'a>, Refusal> {
        Record::new(self.hand_out(r)?)
    }

    /// The hand-outs from record 0 on; a faulty head is the last item.
    pub fn iter(self) -> Records<'a> {
        Records {
            drawer: self,
            next: Some(0),
        }
    }

    /// The look through a pass's own drawer, this one, and the shared one: the own record r if there is one and it has
    /// entries, else the shared one.
    ///
    /// ```
    /// use stayharrow::{Drawer, Origin, RecordBuf, Refusal};
    ///
    /// let (none, shape) = (RecordBuf::build(&[])?, RecordBuf::build(&[2, 1])?);
    /// let own = Drawer::new(none.as_bytes())?;
    /// let shared = Drawer::new(shape.as_bytes())?;
    /// let seen = own.look(shared, 0).unwrap();
    /// assert_eq!((seen.origin, seen.bytes), (Origin::Shared, shape.as_bytes()));
    /// let refused = own.look(shared, 1).unwrap_err();
    /// assert_eq!((refused.origin, refused.refusal), (Origin::Shared, Refusal::NoRecord));
    /// # Ok::<(), Refusal>(())
    /// ```
    ///
    /// # Errors
    ///
    /// What [`Drawer::find`] says in the own drawer, but for 10; then what it says in the shared one.
    pub fn look(self, shared: Drawer<'a>, r: usize) -> Result<Seen<'a>, LookRefused> {
        let answer = entry::which(self.bytes, shared.bytes, r);
        let origin = match answer.result() {
            Ok(0) => Origin::Own,
            Ok(_) => Origin::Shared,
            Err(refusal) => {
                return Err(LookRefused {
                    origin: answer.origin(),
                    refusal,
                });
            }
        };
        let from = match origin {
            Origin::Own => self,
            Origin::Shared => shared,
        };
        match from.hand_out(r) {
            Ok(bytes) => Ok(Seen { origin, bytes }),
            Err(refusal) => Err(LookRefused { origin, refusal }),
        }
    }
}

impl<'a> TryFrom<&'a [u8]> for Drawer<'a> {
    type Error = Refusal;

    fn try_from(bytes: &'a [u8]) -> Result<Drawer<'a>, Refusal> {
        Drawer::new(bytes)
    }
}

impl<'a> IntoIterator for Drawer<'a> {
    type Item = Result<&'a [u8], Refusal>;
    type IntoIter = Records<'a>;

    fn into_iter(self) -> Records<'a> {
        self.iter()
    }
}

impl fmt::Debug for Drawer<'_> {
    fn fmt(&self, f: &mut fmt::Formatter<'_>) -> fmt::Result {
        f.debug_struct("Drawer")
            .field("bytes", &self.bytes.len())
            .finish_non_exhaustive()
    }
}

/// The hand-outs of a drawer, in order. [`Drawer::iter`] makes it.
#[derive(Clone, Debug)]
pub struct Records<'a> {
    drawer: Drawer<'a>,
    next: Option<usize>,
}

impl<'a> Iterator for Records<'a> {
    type Item = Result<&'a [u8], Refusal>;

    fn next(&mut self) -> Option<Self::Item> {
        let r = self.next.take()?;
        match self.drawer.hand_out(r) {
            Ok(bytes) => {
                self.next = Some(r + 1);
                Some(Ok(bytes))
            }
            Err(Refusal::NoRecord) => None,
            Err(refusal) => Some(Err(refusal)),
        }
    }
}

impl core::iter::FusedIterator for Records<'_> {}

/// One of the two drawers of a look.
#[derive(Clone, Copy, Debug, PartialEq, Eq, Hash)]
pub enum Origin {
    /// The pass's own.
    Own,
    /// The one that all passes share.
    Shared,
}

impl fmt::Display for Origin {
    fn fmt(&self, f: &mut fmt::Formatter<'_>) -> fmt::Result {
        f.write_str(match self {
            Origin::Own => "own",
            Origin::Shared => "shared",
        })
    }
}

/// What a [look](Drawer::look) gives back.
#[derive(Clone, Copy, Debug, PartialEq, Eq, Hash)]
pub struct Seen<'a> {
    /// The drawer that the bytes are a part of.
    pub origin: Origin,
    /// The record's bytes, whose bits are not judged.
    pub bytes: &'a [u8],
}

/// A refusal of a [look](Drawer::look), and the drawer that gave it.
#[derive(Clone, Copy, Debug, PartialEq, Eq, Hash)]
pub struct LookRefused {
    /// The drawer.
    pub origin: Origin,
    /// Its refusal.
    pub refusal: Refusal,
}

impl fmt::Display for LookRefused {
    fn fmt(&self, f: &mut fmt::Formatter<'_>) -> fmt::Result {
        write!(f, "{} drawer {}", self.origin, self.refusal)
    }
}

impl Error for LookRefused {
    fn source(&self) -> Option<&(dyn Error + 'static)> {
        Some(&self.refusal)
    }
}

/// A drawer that grows in a lent buffer.
///
/// ```
/// use stayharrow::{DrawerBuf, Refusal};
///
/// let (mut buffer, mut work) = ([0; 64], [0; 16]);
/// let mut drawer = DrawerBuf::new(&mut buffer)?;
/// drawer.append(&[4, 2, 4, 2, 9], &mut work)?;
/// let record = drawer.append(&[2, 1], &mut work)?;
/// assert_eq!(record.to_string(), "(())");
/// assert_eq!(drawer.used(), 11);
/// assert_eq!(drawer.as_drawer().find(1)?, 6..11);
/// assert_eq!(drawer.append(&[0; 200], &mut work), Err(Refusal::OutputShort));
/// assert_eq!(drawer.used(), 11);
/// # Ok::<(), Refusal>(())
/// ```
pub struct DrawerBuf<'a> {
    buffer: &'a mut [u8],
    used: usize,
}

impl<'a> DrawerBuf<'a> {
    /// A drawer of no records in this buffer.
    ///
    /// # Errors
    ///
    /// 12 for more than 65,536 bytes.
    pub fn new(buffer: &'a mut [u8]) -> Result<DrawerBuf<'a>, Refusal> {
        DrawerBuf::resume(buffer, 0)
    }

    /// A drawer whose records take up the first `used` bytes of this buffer. Whether these are whole framed records is
    /// judged at each append.
    ///
    /// # Errors
    ///
    /// 12 for more than 65,536 bytes, then 13 where the buffer has fewer than `used`.
    pub fn resume(buffer: &'a mut [u8], used: usize) -> Result<DrawerBuf<'a>, Refusal> {
        if MAX_DRAWER < buffer.len() {
            return Err(Refusal::DrawerLong);
        }
        if buffer.len() < used {
            return Err(Refusal::UsedWrong);
        }
        Ok(DrawerBuf { buffer, used })
    }

    /// Writes the column's record straight into the buffer, behind the used bytes. No other byte of the buffer changes;
    /// the work memory needs a number for each entry, and these end at 0.
    ///
    /// # Errors
    ///
    /// In this order: 13 and 14 for the used bytes, 1, 2, 3. Nothing lent is changed then.
    pub fn append(&mut self, column: &[u32], work: &mut [u16]) -> Result<Record<'_>, Refusal> {
        let used = entry::append(self.buffer, self.used, column, work).number()?;
        let before = core::mem::replace(&mut self.used, used);
        Ok(Record::written(&self.buffer[before..used]))
    }

    /// How many bytes the records take up.
    pub fn used(&self) -> usize {
        self.used
    }

    /// The records so far.
    pub fn as_drawer(&self) -> Drawer<'_> {
        Drawer {
            bytes: &self.buffer[..self.used],
        }
    }

    /// The records, for as long as the buffer is lent.
    pub fn into_drawer(self) -> Drawer<'a> {
        Drawer {
            bytes: &self.buffer[..self.used],
        }
    }
}

impl fmt::Debug for DrawerBuf<'_> {
    fn fmt(&self, f: &mut fmt::Formatter<'_>) -> fmt::Result {
        f.debug_struct("DrawerBuf")
            .field("used", &self.used)
            .field("buffer", &self.buffer.len())
            .finish()
    }
}
