//! The timers of a step timed anew, and what a mistake needs to know of the step.

use crate::common::first_word;
use comparison::{packed::DURATIONS, Next, Seen};
use simulator::State;

/// The interrupts of timers A and B in PI, and the units of the timers.
pub const BIT_A: u16 = 0x0100;
pub const BIT_B: u16 = 0x0040;
pub const UNIT_A: u32 = 100;
pub const UNIT_B: u32 = 1000;

/// A timer and its remainder after some tenths, and whether the timer has passed its end.
pub fn risen(timer: u16, tenths: u32, unit: u32) -> (u16, u16, bool) {
    let sum = u32::from(timer) + tenths / unit;
    (sum as u16, (tenths % unit) as u16, sum > 0xFFFF)
}

/// PI with the interrupt of a timer only where it was pending before the step or has come up.
pub fn pending(seen: &Seen, after: &State, bit: u16, comes: bool) -> u16 {
    let entered = matches!(seen.next, Next::Entry(number) if bit == 0x8000 >> number);
    let stays = seen.before.pi & bit != 0 && !entered;
    after.pi & !bit | if stays || comes { bit } else { 0 }
}

/// Leaves timer A as so many tenths leave it, from a value that it had.
pub fn timed_a(seen: &Seen, after: &mut State, timer: u16, tenths: u32) {
    let comes;
    (after.timer_a, after.remainder_a, comes) = risen(timer, tenths, UNIT_A);
    after.pi = pending(seen, after, BIT_A, comes);
}

/// Leaves timer B as so many tenths leave it, from a value that it had.
pub fn timed_b(seen: &Seen, after: &mut State, timer: u16, tenths: u32, unit: u32) {
    let comes;
    (after.timer_b, after.remainder_b, comes) = risen(timer, tenths, unit);
    after.pi = pending(seen, after, BIT_B, comes);
}

/// Leaves both timers, if they run, as if the step had taken another duration.
pub fn taking(seen: &Seen, after: &mut State, duration: u32) {
    let State { timer_a, timer_b, remainder_a, remainder_b, .. } = *seen.before;
    if after.timer_a_running {
        timed_a(seen, after, timer_a, u32::from(remainder_a) + duration);
    }
    if after.timer_b_running {
        timed_b(seen, after, timer_b, u32::from(remainder_b) + duration, UNIT_B);
    }
}

/// One of the durations that are lent.
pub fn lent(seen: &Seen, number: usize) -> u32 {
    u32::from(seen.durations[number])
}

/// The duration of an entry.
pub fn entry(seen: &Seen) -> u32 {
    lent(seen, DURATIONS - 1)
}

/// The duration of the step.
pub fn duration(seen: &Seen) -> u32 {
    u32::from(seen.duration())
}

/// Whether the step runs an instruction that faults with some of these bits of FT.
pub fn faults(seen: &Seen, after: &State, bits: u16) -> bool {
    matches!(seen.next, Next::Instruction { .. }) && after.ft & !seen.before.ft & bits != 0
}

/// Whether timer A runs through a step without a command.
pub fn a_runs_on(seen: &Seen) -> bool {
    seen.before.timer_a_running && first_word(seen, 0x48).is_none()
}

/// Whether timer B runs through a step without a command.
pub fn b_runs_on(seen: &Seen) -> bool {
    seen.before.timer_b_running && first_word(seen, 0x48).is_none()
}

/// The sum of timer A's remainder and the duration.
pub fn tenths_a(seen: &Seen) -> u32 {
    u32::from(seen.before.remainder_a) + duration(seen)
}

/// The sum of timer B's remainder and the duration.
pub fn tenths_b(seen: &Seen) -> u32 {
    u32::from(seen.before.remainder_b) + duration(seen)
}
