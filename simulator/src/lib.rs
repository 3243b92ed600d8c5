//! A plain simulator of the MIL-STD-1750A processor: state, pages, interrupts, instructions.
//!
//! The caller lends memory, page registers, ports and durations as slices of 16-bit words. Bit 0 is
//! the most significant bit of a word. Paragraph numbers in comments are those of the processor's
//! standard.

#![forbid(unsafe_code)]

mod access;
mod address;
mod base;
mod bits;
mod command;
mod compare;
mod difference;
mod dispatch;
mod division;
mod fixed;
mod float;
mod float_machine;
mod generator;
mod image;
mod interrupt;
mod jump;
pub mod lines;
mod load;
mod logic;
mod machine;
mod page;
mod product;
mod program;
mod questions;
mod shift;
mod shifts;
mod stack;
mod state;
mod store;
mod sum;
pub mod test_cases;

pub use float::{Float, Outcome, Width, EXTENDED, SINGLE};
pub use image::load;
pub use machine::{run, step};
pub use program::{print, program};
pub use program::{PROGRAM_BYTES, PROGRAM_DURATION, PROGRAM_STEPS, PROGRAM_WORDS};
pub use state::{reset, State, DURATIONS, PAGE_REGISTERS, PORTS};

/// The float operations of both widths, each on exact whole numbers.
pub mod floats {
    pub use crate::float::{absolute, compared, difference, fixed, floated};
    pub use crate::float::{negated, normalised, product, quotient, sum};
}
