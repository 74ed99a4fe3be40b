//! Where the leftmost cheapest block between two others stands, asked of the column's shape alone.
//!
//! A host keeps a *column* of up to 32,768 block counts for each compiled function and carries down the line of passes
//! not the column but its [`Record`]: two bits an entry behind a head of four bytes. The record tells where the leftmost
//! smallest entry of any stretch stands, and nothing of the counts. The code behind these types is written in Rattle and
//! proved; this crate puts Rust's types in front of its archive, `libstayharrow.a`.
//!
//! ```
//! use stayharrow::{RecordBuf, Refusal};
//!
//! let counts = [4, 2, 4, 2, 9];
//! let record = RecordBuf::build(&counts)?;
//! let indexed = record.as_record().index();
//! assert_eq!(indexed.ask(0..=4)?, 1); // ties go to the left
//! assert_eq!(indexed.ask(2..=4)?, 3);
//! # Ok::<(), Refusal>(())
//! ```
//!
//! | Type | What it is | What it may be asked |
//! |---|---|---|
//! | [`Record`], [`RecordBuf`] | bytes that passed the record check, borrowed or owned | [`ask`](Record::ask), [`stand_in`](Record::stand_in), [`window`](Record::window) |
//! | [`Indexed`] | a record beside its own summary | [`ask`](Indexed::ask), quickly |
//! | [`Window`] | the right to ask about one stretch of a record | [`ask`](Window::ask) |
//! | [`Drawer`] | records one after another in lent bytes | [`find`](Drawer::find), [`record`](Drawer::record), [`look`](Drawer::look) |
//! | [`DrawerBuf`] | a drawer that grows in a lent buffer | [`append`](DrawerBuf::append) |
//! | [`Refusal`] | why nothing was done | [`number`](Refusal::number), [`meaning`](Refusal::meaning) |
//!
//! Bytes from anywhere may be handed to any of them: what is not in order is refused by a number, and a refusal changes
//! nothing. [`mod@entry`] has the archive's entry points as they are.
//!
//! Nothing here allocates but [`RecordBuf`], [`Record::index`] and [`Record::to_stand_in`]; each has a counterpart that
//! writes into lent memory.
//!
//! The archive is linked by this crate's build script, from where `bin/archive` writes it or from the folder that the
//! environment variable `STAYHARROW_ARCHIVE` names.

#![no_std]
#![deny(unsafe_code)]

extern crate alloc;

mod drawer;
pub mod entry;
mod indexed;
mod record;
mod refusal;
#[allow(unsafe_code)]
mod sys;
mod window;

/// The page for host engineers: its example is run as a doctest.
#[cfg(doctest)]
#[doc = include_str!("../../docs/HOST.md")]
struct Page;

use core::ops::RangeInclusive;

pub use drawer::{Drawer, DrawerBuf, LookRefused, Origin, Records, Seen};
pub use indexed::Indexed;
pub use record::{Record, RecordBuf, record_len};
pub use refusal::Refusal;
pub use window::Window;

/// The most entries that a column may have.
pub const MAX_ENTRIES: usize = 32_768;
/// The length of the longest record.
pub const MAX_RECORD: usize = record_len(MAX_ENTRIES);
/// The most bytes that a drawer or its buffer may have.
pub const MAX_DRAWER: usize = 65_536;
/// The most records that a drawer may have.
pub const MAX_RECORDS: usize = 64;
/// How many numbers a summary has.
pub const SUMMARY_LEN: usize = 896;

#[cfg(not(target_pointer_width = "64"))]
compile_error!("the archive is for machines of 64 bits");

/// The first and the last place of a stretch; those of an empty one are such that every ask refuses them.
#[inline]
fn places(stretch: RangeInclusive<usize>) -> (usize, usize) {
    if stretch.is_empty() {
        return (1, 0);
    }
    stretch.into_inner()
}
