//! Mistakes in which duration a step takes.

use crate::common::{agrees, caught_in_steps, first_word, Mistake};
use crate::timing::{duration, entry, faults, lent, taking, timed_a};
use comparison::Next;

/// The mistakes.
const MISTAKES: [(&str, Mistake); 9] = [
    ("BEX takes the entry's duration", |seen, after, _| {
        if first_word(seen, 0x77).is_some() {
            taking(seen, after, entry(seen));
        }
    }),
    ("BEX takes the entry's duration as well", |seen, after, _| {
        if first_word(seen, 0x77).is_some() {
            taking(seen, after, duration(seen) + entry(seen));
        }
    }),
    ("a refused first fetch takes the duration of opcode 00", |seen, after, _| {
        if seen.next == Next::Refused {
            taking(seen, after, lent(seen, 0));
        }
    }),
    ("an entry takes the duration of opcode 00", |seen, after, _| {
        if matches!(seen.next, Next::Entry(_)) {
            taking(seen, after, lent(seen, 0));
        }
    }),
    ("an illegal word takes the entry's duration", |seen, after, _| {
        if faults(seen, after, 0x0040) {
            taking(seen, after, entry(seen));
        }
    }),
    ("a privileged instruction that is refused takes the entry's duration", |seen, after, _| {
        if faults(seen, after, 0x0020) {
            taking(seen, after, entry(seen));
        }
    }),
    ("an instruction with a refused access takes the entry's duration", |seen, after, _| {
        if faults(seen, after, 0x8080) {
            taking(seen, after, entry(seen));
        }
    }),
    ("MOV counts once", |seen, after, _| {
        if first_word(seen, 0x93).is_some() && after.ic == seen.before.ic {
            taking(seen, after, 0);
        }
    }),
    ("the opcode is taken without its last bit", |seen, after, _| {
        if seen.next.number() & 1 == 1 && first_word(seen, 0x48).is_none() {
            taking(seen, after, lent(seen, seen.next.number() & !1));
        }
    }),
];

/// Timing a step anew is no mistake where it takes its own duration.
#[test]
fn nothing_is_reported_of_the_right_duration() {
    agrees(|seen, after, _| {
        if let Some(first) = seen.commanded(0x400A) {
            let timer = seen.before.r[usize::from((first >> 4) & 0xF)];
            timed_a(seen, after, timer, duration(seen));
        } else if first_word(seen, 0x48).is_none() {
            taking(seen, after, duration(seen));
        }
    });
}

#[test]
fn mistakes_in_durations() {
    caught_in_steps(&MISTAKES);
}
