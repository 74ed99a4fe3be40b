//! Trials of the archive against document 01, restated in plain Rust ([`rules`]).
//!
//! Each case is run by its suite's name, its number and the seed alone, so any of them can be run again. Every answer is
//! compared as the archive's own word, and all lent memory is compared whole, with guards on both sides.

pub mod columns;
pub mod lent;
pub mod random;
pub mod rig;
pub mod rules;
pub mod suites;
