//! Mistakes in how the timers rise.

use crate::common::{caught_in_steps, Mistake};
use crate::timing::{a_runs_on, b_runs_on, duration, pending, tenths_a, tenths_b};
use crate::timing::{timed_a, timed_b, BIT_A, BIT_B, UNIT_A, UNIT_B};

/// The mistakes.
const MISTAKES: [(&str, Mistake); 11] = [
    ("the remainder is dropped at a rise", |seen, after, _| {
        if a_runs_on(seen) && after.timer_a != seen.before.timer_a {
            after.remainder_a = 0;
        }
    }),
    ("timer B has timer A's unit", |seen, after, _| {
        if b_runs_on(seen) {
            timed_b(seen, after, seen.before.timer_b, tenths_b(seen), UNIT_A);
        }
    }),
    ("timer B rises by the counter", |seen, after, _| {
        if b_runs_on(seen) {
            let tenths = if after.counter % 10 == 0 { UNIT_B } else { 0 };
            timed_b(seen, after, seen.before.timer_b, tenths, UNIT_B);
        }
    }),
    ("timer A passes its end only where it comes to 0000", |seen, after, _| {
        if a_runs_on(seen) && after.timer_a != 0 {
            after.pi = pending(seen, after, BIT_A, false);
        }
    }),
    ("timer B passes its end only from FFFF", |seen, after, _| {
        if b_runs_on(seen) && seen.before.timer_b != 0xFFFF {
            after.pi = pending(seen, after, BIT_B, false);
        }
    }),
    ("of two timers that pass their ends one asks for its interrupt", |seen, after, _| {
        let passes = |bit| after.pi & !seen.before.pi & bit != 0;
        if a_runs_on(seen) && b_runs_on(seen) && passes(BIT_A) && passes(BIT_B) {
            after.pi &= !BIT_B;
        }
    }),
    ("256 rises and more are cut to 8 bits", |seen, after, _| {
        if a_runs_on(seen) {
            timed_a(seen, after, seen.before.timer_a, tenths_a(seen) % (UNIT_A << 8));
        }
    }),
    ("1,024 rises and more are cut to 10 bits", |seen, after, _| {
        if a_runs_on(seen) {
            timed_a(seen, after, seen.before.timer_a, tenths_a(seen) % (UNIT_A << 10));
        }
    }),
    ("remainder and duration are added in 16 bits", |seen, after, _| {
        if a_runs_on(seen) {
            timed_a(seen, after, seen.before.timer_a, tenths_a(seen) % 0x1_0000);
        }
    }),
    ("a given remainder of 100 and more counts modulo 100", |seen, after, _| {
        if a_runs_on(seen) {
            let tenths = u32::from(seen.before.remainder_a) % UNIT_A + duration(seen);
            timed_a(seen, after, seen.before.timer_a, tenths);
        }
    }),
    ("a given remainder of 100 and more goes modulo 100 while halted", |_, after, _| {
        if !after.timer_a_running {
            after.remainder_a %= UNIT_A as u16;
        }
    }),
];

#[test]
fn mistakes_in_rises() {
    caught_in_steps(&MISTAKES);
}
