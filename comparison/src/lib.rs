//! The twin beside the second simulator: random programs and mnemonic lines on both, and everything compared.

#![forbid(unsafe_code)]

mod accesses;
mod case;
mod code;
pub mod commands;
mod compare;
mod coverage;
mod durations;
mod fault_moments;
mod images;
mod lines;
mod lookup;
mod moments;
mod numbers;
pub mod packed;
mod plant;
mod programs;
mod refusals;
mod report;
mod scene;
mod shapes;
mod simulated;
mod subject;
mod twin;
mod watch;
mod words;

/// The seed of the quick batch, and its number of cases.
pub const SEED: u64 = 1750;
pub const CASES: u64 = 20_000;

pub use compare::{compare, Batch};
pub use coverage::Coverage;
pub use lines::{Buffers, LegalLines, LineBatch, LineDifference, LineSubject, Request, LINES};
pub use lookup::{Access, Part, Refused};
pub use programs::programs;
pub use simulated::{Simulated, Stepped, Watcher};
pub use subject::{Call, Lent, Subject};
pub use twin::Twin;
pub use watch::{Next, Seen};
