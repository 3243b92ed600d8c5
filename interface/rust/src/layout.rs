//! The packed state's layout, as `twin1750.h` names it: its words by their numbers, the marks by the weights of their bits; and
//! the sizes of the list of durations and of the buffer that a mnemonic line is printed into.
//!
//! R0 to R15 are words 0 to 15. Every word that has no name here is not looked at, and is 0 after a call that is done; the
//! same holds for the bits of [`MARKS`] that are no marks. Words 27 to 30 are kept for parts of a later version.

/// The version of the C interface. It rises when a word of the layout or a call changes its meaning.
pub const VERSION: u32 = 5;
/// The number of words of a packed state.
pub const STATE_WORDS: usize = 256;
/// The number of durations that a run is lent: one for each opcode, and one for a step that fetches no first word.
pub const DURATIONS: usize = 257;
/// The number of bytes that a mnemonic line is printed into; the longest line has 17.
pub const LINE_BYTES: usize = 256;

/// The instruction counter.
pub const IC: usize = 16;
/// The status word.
pub const SW: usize = 17;
/// The interrupt mask.
pub const MK: usize = 18;
/// The pending interrupts.
pub const PI: usize = 19;
/// The faults.
pub const FT: usize = 20;
/// The marks.
pub const MARKS: usize = 21;
/// Timer A.
pub const TIMER_A: usize = 22;
/// Timer B.
pub const TIMER_B: usize = 23;
/// The remainder of timer A.
pub const REMAINDER_A: usize = 24;
/// The remainder of timer B.
pub const REMAINDER_B: usize = 25;
/// The memory fault status.
pub const MFS: usize = 26;
/// The high word of the step counter.
pub const COUNTER_HIGH: usize = 32;
/// The low word of the step counter.
pub const COUNTER_LOW: usize = 33;

/// The mark of enabled interrupts, bit 15.
pub const ENABLED: u16 = 1;
/// The hold mark, bit 14.
pub const HOLD: u16 = 2;
/// The mark of a running timer A, bit 13.
pub const A_RUNS: u16 = 4;
/// The mark of a running timer B, bit 12.
pub const B_RUNS: u16 = 8;
