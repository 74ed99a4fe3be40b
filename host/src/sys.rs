//! The boundary: the archive's functions, each behind a safe function that takes slices.
//!
//! This is the only module with `unsafe` in it. Every function of the archive takes any bytes and numbers, reads and
//! writes inside the slices alone and comes to an end; that is proved. What is left to the caller is what a slice
//! promises anyway: that the memory is there, is aligned, and that nothing else sees what is lent mutably.

unsafe extern "C" {
    fn stayharrow_build(
        column: *const u32,
        column_len: usize,
        work: *mut u16,
        work_len: usize,
        out: *mut u8,
        out_len: usize,
    ) -> u64;
    fn stayharrow_check(bytes: *const u8, bytes_len: usize) -> u64;
    fn stayharrow_fill(
        record: *const u8,
        record_len: usize,
        summary: *mut u16,
        summary_len: usize,
    ) -> u64;
    fn stayharrow_ask(record: *const u8, record_len: usize, i: usize, j: usize) -> u64;
    fn stayharrow_quick_ask(
        record: *const u8,
        record_len: usize,
        summary: *const u16,
        summary_len: usize,
        i: usize,
        j: usize,
    ) -> u64;
    fn stayharrow_stand_in(
        record: *const u8,
        record_len: usize,
        column: *mut u32,
        column_len: usize,
    ) -> u64;
    fn stayharrow_find(drawer: *const u8, drawer_len: usize, r: usize) -> u64;
    fn stayharrow_which(
        own: *const u8,
        own_len: usize,
        shared: *const u8,
        shared_len: usize,
        r: usize,
    ) -> u64;
    fn stayharrow_append(
        buffer: *mut u8,
        buffer_len: usize,
        used: usize,
        column: *const u32,
        column_len: usize,
        work: *mut u16,
        work_len: usize,
    ) -> u64;
    fn stayharrow_window(record: *const u8, record_len: usize, first: usize, last: usize) -> u64;
    fn stayharrow_window_ask(
        record: *const u8,
        record_len: usize,
        first: usize,
        last: usize,
        i: usize,
        j: usize,
    ) -> u64;
}

#[inline]
pub(crate) fn build(column: &[u32], work: &mut [u16], out: &mut [u8]) -> u64 {
    // SAFETY: each pointer and length is a live slice's; the two mutable ones are lent to this call alone.
    unsafe {
        stayharrow_build(
            column.as_ptr(),
            column.len(),
            work.as_mut_ptr(),
            work.len(),
            out.as_mut_ptr(),
            out.len(),
        )
    }
}

#[inline]
pub(crate) fn check(bytes: &[u8]) -> u64 {
    // SAFETY: the pointer and the length are a live slice's, which is only read.
    unsafe { stayharrow_check(bytes.as_ptr(), bytes.len()) }
}

#[inline]
pub(crate) fn fill(record: &[u8], summary: &mut [u16]) -> u64 {
    // SAFETY: each pointer and length is a live slice's; the summary is lent to this call alone.
    unsafe {
        stayharrow_fill(
            record.as_ptr(),
            record.len(),
            summary.as_mut_ptr(),
            summary.len(),
        )
    }
}

#[inline]
pub(crate) fn ask(record: &[u8], i: usize, j: usize) -> u64 {
    // SAFETY: the pointer and the length are a live slice's, which is only read.
    unsafe { stayharrow_ask(record.as_ptr(), record.len(), i, j) }
}

#[inline]
pub(crate) fn quick_ask(record: &[u8], summary: &[u16], i: usize, j: usize) -> u64 {
    // SAFETY: each pointer and length is a live slice's, which is only read.
    unsafe {
        stayharrow_quick_ask(
            record.as_ptr(),
            record.len(),
            summary.as_ptr(),
            summary.len(),
            i,
            j,
        )
    }
}

#[inline]
pub(crate) fn stand_in(record: &[u8], column: &mut [u32]) -> u64 {
    // SAFETY: each pointer and length is a live slice's; the column is lent to this call alone.
    unsafe {
        stayharrow_stand_in(
            record.as_ptr(),
            record.len(),
            column.as_mut_ptr(),
            column.len(),
        )
    }
}

#[inline]
pub(crate) fn find(drawer: &[u8], r: usize) -> u64 {
    // SAFETY: the pointer and the length are a live slice's, which is only read.
    unsafe { stayharrow_find(drawer.as_ptr(), drawer.len(), r) }
}

#[inline]
pub(crate) fn which(own: &[u8], shared: &[u8], r: usize) -> u64 {
    // SAFETY: each pointer and length is a live slice's, which is only read.
    unsafe { stayharrow_which(own.as_ptr(), own.len(), shared.as_ptr(), shared.len(), r) }
}

#[inline]
pub(crate) fn append(buffer: &mut [u8], used: usize, column: &[u32], work: &mut [u16]) -> u64 {
    // SAFETY: each pointer and length is a live slice's; the two mutable ones are lent to this call alone.
    unsafe {
        stayharrow_append(
            buffer.as_mut_ptr(),
            buffer.len(),
            used,
            column.as_ptr(),
            column.len(),
            work.as_mut_ptr(),
            work.len(),
        )
    }
}

#[inline]
pub(crate) fn window(record: &[u8], first: usize, last: usize) -> u64 {
    // SAFETY: the pointer and the length are a live slice's, which is only read.
    unsafe { stayharrow_window(record.as_ptr(), record.len(), first, last) }
}

#[inline]
pub(crate) fn window_ask(record: &[u8], first: usize, last: usize, i: usize, j: usize) -> u64 {
    // SAFETY: the pointer and the length are a live slice's, which is only read.
    unsafe { stayharrow_window_ask(record.as_ptr(), record.len(), first, last, i, j) }
}
