//! Mistakes of commands.

use crate::common::{caught_in_steps, Mistake};
use crate::timing::{duration, tenths_a, timed_a};

/// The timer commands.
const TAS: u16 = 0x4008;
const TAH: u16 = 0x4009;
const OTA: u16 = 0x400A;
const TBH: u16 = 0x400D;
const OTB: u16 = 0x400E;

/// The mistakes.
const MISTAKES: [(&str, Mistake); 9] = [
    ("OTA keeps the remainder", |seen, after, _| {
        if let Some(first) = seen.commanded(OTA) {
            timed_a(seen, after, seen.before.r[usize::from((first >> 4) & 0xF)], tenths_a(seen));
        }
    }),
    ("OTB clears timer A's remainder", |seen, after, _| {
        if seen.commanded(OTB).is_some() && after.timer_a_running {
            timed_a(seen, after, seen.before.timer_a, duration(seen));
        }
    }),
    ("OTA does not count its own step", |seen, after, _| {
        if let Some(first) = seen.commanded(OTA) {
            timed_a(seen, after, seen.before.r[usize::from((first >> 4) & 0xF)], 0);
        }
    }),
    ("TAH counts its own step", |seen, after, _| {
        if seen.commanded(TAH).is_some() && seen.before.timer_a_running {
            timed_a(seen, after, seen.before.timer_a, tenths_a(seen));
        }
    }),
    ("TAS does not count its own step", |seen, after, _| {
        if seen.commanded(TAS).is_some() && !seen.before.timer_a_running {
            (after.timer_a, after.remainder_a) = (seen.before.timer_a, seen.before.remainder_a);
            after.pi = seen.before.pi;
        }
    }),
    ("TAS clears the remainder of a timer that runs", |seen, after, _| {
        if seen.commanded(TAS).is_some() && seen.before.timer_a_running {
            timed_a(seen, after, seen.before.timer_a, duration(seen));
        }
    }),
    ("halting timer B drops its remainder", |seen, after, _| {
        if seen.commanded(TBH).is_some() {
            after.remainder_b = 0;
        }
    }),
    ("CLIR clears timer B's remainder", |seen, after, _| {
        if seen.commanded(0x2001).is_some() && !after.timer_b_running {
            after.remainder_b = 0;
        }
    }),
    ("ITA reads after the rise", |seen, after, _| {
        if let Some(first) = seen.commanded(0xC00A) {
            after.r[usize::from((first >> 4) & 0xF)] = after.timer_a;
        }
    }),
];

#[test]
fn mistakes_of_commands() {
    caught_in_steps(&MISTAKES);
}
