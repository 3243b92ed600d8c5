//! Mistakes in what clears, keeps and reads the status.

use crate::common::{caught_in_steps, first_word, Mistake};
use crate::shown::RESERVED;
use comparison::{Next, Seen};
use simulator::State;

/// The commands.
const CLIR: u16 = 0x2001;
const RPI: u16 = 0x2004;
const SPI: u16 = 0x2005;
const RMFS: u16 = 0xA00D;
const RCFR: u16 = 0xA00F;

/// The register of RA in a first word.
fn ra(first: u16) -> usize {
    usize::from((first >> 4) & 0xF)
}

/// Clears the status where a fault sets this bit of FT anew.
fn cleared_by(seen: &Seen, after: &mut State, bit: u16) {
    if after.ft & !seen.before.ft & bit != 0 {
        after.mfs = 0;
    }
}

/// Clears the status where a command is carried out.
fn cleared_in(seen: &Seen, after: &mut State, code: u16) {
    if seen.commanded(code).is_some() {
        after.mfs = 0;
    }
}

/// The mistakes.
const MISTAKES: [(&str, Mistake); 15] = [
    ("an illegal word clears the status", |seen, after, _| cleared_by(seen, after, 0x0040)),
    ("a privileged instruction clears it", |seen, after, _| cleared_by(seen, after, 0x0020)),
    ("an illegal command clears it", |seen, after, _| cleared_by(seen, after, 0x0400)),
    ("an illegal word is shown", |seen, after, _| {
        if after.ft & !seen.before.ft & 0x0040 != 0 {
            after.mfs = (seen.before.ic & 0xF000) | 0x0010 | (seen.before.sw & 0xF);
        }
    }),
    ("CLIR keeps it", |seen, after, _| {
        if seen.commanded(CLIR).is_some() {
            after.mfs = seen.before.mfs;
        }
    }),
    ("RCFR clears it", |seen, after, _| cleared_in(seen, after, RCFR)),
    ("RPI of interrupt 1 clears it", |seen, after, _| {
        let first = seen.commanded(RPI);
        if first.is_some_and(|first| seen.before.r[ra(first)] & 0xF == 1) {
            after.mfs = 0;
        }
    }),
    ("SPI clears it", |seen, after, _| cleared_in(seen, after, SPI)),
    ("RMFS clears it", |seen, after, _| cleared_in(seen, after, RMFS)),
    ("RMFS sets CS", |seen, after, _| {
        if let Some(first) = seen.commanded(RMFS) {
            let condition = match after.r[ra(first)] as i16 {
                0 => 0x2000,
                1.. => 0x4000,
                _ => 0x1000,
            };
            after.sw = (after.sw & 0x0FFF) | condition;
        }
    }),
    ("RMFS gives reserved bits as 0", |seen, after, _| {
        if let Some(first) = seen.commanded(RMFS) {
            after.r[ra(first)] &= !RESERVED;
        }
    }),
    ("RMFS reads FT", |seen, after, _| {
        if let Some(first) = seen.commanded(RMFS) {
            after.r[ra(first)] = after.ft;
        }
    }),
    ("RMFS is done with any key", |seen, after, _| {
        if let Next::Instruction { first, command: Some(RMFS) } = seen.next {
            after.r[ra(first)] = after.mfs;
        }
    }),
    ("every step clears the reserved bits", |_, after, _| after.mfs &= !RESERVED),
    ("LST clears it", |seen, after, _| {
        if first_word(seen, 0x7D).is_some() && seen.refusals.is_empty() {
            after.mfs = 0;
        }
    }),
];

#[test]
fn mistakes_in_what_keeps_it() {
    caught_in_steps(&MISTAKES);
}
