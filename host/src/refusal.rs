use core::error::Error;
use core::fmt;

/// Why nothing was done, by the customer's numbers from 1 to 14.
///
/// A refusal is an ordinary answer: it leaves every lent byte and number as it was.
///
/// ```
/// use stayharrow::{Record, Refusal};
///
/// let refusal = Record::new(b"RM\x01\x00\x02").unwrap_err();
/// assert_eq!(refusal, Refusal::Unbalanced);
/// assert_eq!(refusal.number(), 7);
/// assert_eq!(refusal.to_string(), "refused 7: not balanced");
/// ```
#[derive(Clone, Copy, Debug, PartialEq, Eq, PartialOrd, Ord, Hash)]
#[repr(u8)]
pub enum Refusal {
    /// 1: n above 32,768.
    TooManyEntries = 1,
    /// 2: output shorter than needed.
    OutputShort = 2,
    /// 3: work shorter than n, or summary shorter than 896.
    WorkShort = 3,
    /// 4: mark not 52 4D.
    Unmarked = 4,
    /// 5: bytes end before the head or the record does.
    CutShort = 5,
    /// 6: an unused bit is 1.
    UnusedBit = 6,
    /// 7: not balanced.
    Unbalanced = 7,
    /// 8: i above j, or j of n or more, or outside the window.
    OutOfRange = 8,
    /// 9: the summary is not this record's own. Only a quick ask over lent numbers says it.
    Foreign = 9,
    /// 10: the drawer has no such record.
    NoRecord = 10,
    /// 11: bytes after a single record.
    BytesAfter = 11,
    /// 12: drawer or its buffer above 65,536 bytes.
    DrawerLong = 12,
    /// 13: used length past the buffer, or used bytes not whole framed records.
    UsedWrong = 13,
    /// 14: 64 records stand already, or more.
    DrawerFull = 14,
}

impl Refusal {
    /// All of them, in the order of their numbers.
    pub const ALL: [Refusal; 14] = [
        Refusal::TooManyEntries,
        Refusal::OutputShort,
        Refusal::WorkShort,
        Refusal::Unmarked,
        Refusal::CutShort,
        Refusal::UnusedBit,
        Refusal::Unbalanced,
        Refusal::OutOfRange,
        Refusal::Foreign,
        Refusal::NoRecord,
        Refusal::BytesAfter,
        Refusal::DrawerLong,
        Refusal::UsedWrong,
        Refusal::DrawerFull,
    ];

    /// The customer's number, from 1 to 14.
    ///
    /// ```
    /// # use stayharrow::Refusal;
    /// assert!(Refusal::ALL.iter().map(|refusal| refusal.number()).eq(1..=14));
    /// ```
    pub const fn number(self) -> u8 {
        self as u8
    }

    /// The refusal with this number.
    ///
    /// ```
    /// # use stayharrow::Refusal;
    /// assert_eq!(Refusal::from_number(8), Some(Refusal::OutOfRange));
    /// assert_eq!(Refusal::from_number(0), None);
    /// ```
    pub const fn from_number(number: u8) -> Option<Refusal> {
        if number == 0 || number as usize > Refusal::ALL.len() {
            return None;
        }
        Some(Refusal::ALL[number as usize - 1])
    }

    /// What it means, in the customer's words.
    pub const fn meaning(self) -> &'static str {
        match self {
            Refusal::TooManyEntries => "n above 32,768",
            Refusal::OutputShort => "output shorter than needed",
            Refusal::WorkShort => "work shorter than n, or summary shorter than 896",
            Refusal::Unmarked => "mark not 52 4D",
            Refusal::CutShort => "bytes end before the head or the record does",
            Refusal::UnusedBit => "an unused bit is 1",
            Refusal::Unbalanced => "not balanced",
            Refusal::OutOfRange => "i > j, or j >= n, or outside the window",
            Refusal::Foreign => "the summary is not the record's own",
            Refusal::NoRecord => "the drawer has no such record",
            Refusal::BytesAfter => "bytes after a single record",
            Refusal::DrawerLong => "drawer or its buffer above 65,536 bytes",
            Refusal::UsedWrong => {
                "used length past the buffer, or used bytes not whole framed records"
            }
            Refusal::DrawerFull => "64 records stand already",
        }
    }
}

impl fmt::Display for Refusal {
    fn fmt(&self, f: &mut fmt::Formatter<'_>) -> fmt::Result {
        write!(f, "refused {}: {}", self.number(), self.meaning())
    }
}

impl Error for Refusal {}
