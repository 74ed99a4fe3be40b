//! The rival: the same entry points over the same bytes and numbers, in safe Rust, as fast as we could make them.
//!
//! They answer as the proved ones do, refusals and all, and the bench compares the answers before it takes a time.
//! Nothing of them is proved, so they may do what is quick to write and hard to argue: signed numbers, words of eight
//! bytes, tables in constant memory. What was tried and was slower: rows packed into one number, four bytes at a time
//! up to a closing, the place of closing j before the scan of its block.

mod build;
mod plain;
mod quick;
mod scan;

pub use build::{append, build};
pub use plain::{ask, check, fill, find};
pub use quick::quick_ask;

/// The word of a refusal.
const fn refused(number: u64) -> u64 {
    1 << 63 | number
}

/// n of a framed record, or the refusal's number: 5 for fewer than 4 bytes, 4, 1, 5 for the rest.
#[inline]
fn frame(bytes: &[u8]) -> Result<usize, u64> {
    let Some(&[first, second, low, high]) = bytes.first_chunk() else {
        return Err(5);
    };
    if [first, second] != [0x52, 0x4D] {
        return Err(4);
    }
    let n = usize::from(u16::from_le_bytes([low, high]));
    if n > 32_768 {
        return Err(1);
    }
    if bytes.len() < length(n) {
        return Err(5);
    }
    Ok(n)
}

#[inline]
const fn length(n: usize) -> usize {
    4 + n.div_ceil(4)
}
