//! Mnemonic lines on both: every first word printed and read back, and random lines read, most of them damaged.

mod compare;
mod damage;
mod operands;
mod random;
mod report;
mod speed;
mod subject;
mod tally;

/// The number of lines of the quick batch.
pub const LINES: u64 = 100_000;

pub use compare::LineBatch;
pub use report::LineDifference;
pub use speed::LegalLines;
pub use subject::{Buffers, LineSubject, Request};
