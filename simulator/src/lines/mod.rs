//! Mnemonic lines: the one or two words of an instruction as a line such as `LISP R3,16`, and a
//! line back as words.
//!
//! A line is bytes without a newline, of any length. The refusals have numbers: 14 where the
//! mnemonic is unknown or a word begins no legal instruction, 15 where the operands do not have the
//! form that the instruction's box in section 5 shows, 16 where one lies outside its field.

mod cases;
mod digits;
mod find;
mod operand;
mod program;
mod read;
mod table;
mod write;

pub use cases::requests;
pub use program::{answers, LINE_BYTES};
pub use read::{read, Words};
pub use write::{print, write};
