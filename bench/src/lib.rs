//! Times of the proved code, natively, beside the best that we could write in safe Rust and, where it is installed,
//! beside sdsl.

pub mod cases;
pub mod count;
pub mod measure;
pub mod others;
pub mod peers;
pub mod plot;
pub mod quick;
pub mod report;
pub mod rival;
