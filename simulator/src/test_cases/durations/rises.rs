//! How far a timer rises in a step: remainders and durations at their borders, and timers that are
//! halted.

use crate::test_cases::case::Case;

/// Remainders: below, at and above the units of both timers.
const REMAINDERS: [u16; 7] = [0, 1, 99, 100, 999, 1000, u16::MAX];
/// Durations: none, at the units of both timers, the longest.
const TENTHS: [u16; 8] = [0, 1, 99, 100, 101, 999, 1000, u16::MAX];

/// A NOP of some tenths, other instructions of another number of them.
fn nop(title: String, tenths: u16) -> Case {
    Case::on(title, &[0xFF00]).durations(7_777).duration(0xFF, tenths)
}

/// The timer that comes to a number in a step.
fn before(end: u16, remainder: u16, tenths: u16, unit: u32) -> u16 {
    let rises = (u32::from(remainder) + u32::from(tenths)) / unit;
    end.wrapping_sub(rises as u16)
}

/// Both timers to just before, to and beyond their end, for every remainder and every duration.
fn ends(cases: &mut Vec<Case>) {
    for remainder in REMAINDERS {
        for tenths in TENTHS {
            for end in [0xFFFF, 0x0000, 0x0001] {
                let title = format!("{tenths} tenths on remainders of {remainder}, to {end:04X}");
                let [a, b] = [100, 1000].map(|unit| before(end, remainder, tenths, unit));
                cases.push(nop(title, tenths).timers(a, b).remainders(remainder, remainder));
            }
        }
    }
}

/// One timer or both halted, each with any remainder.
fn halted(cases: &mut Vec<Case>) {
    for marks in [0x0000, 0x0004, 0x0008] {
        for remainder in [0, 99, 1000, u16::MAX] {
            for tenths in [0, 1000, u16::MAX] {
                let title = format!("{tenths} tenths on remainders of {remainder}, marks {marks}");
                let case = nop(title, tenths).timers(0xFFFF, 0xFFFF).marks(marks);
                cases.push(case.remainders(remainder, remainder));
            }
        }
    }
}

/// Many steps of one length, from remainders of 0 and from large ones.
fn many(cases: &mut Vec<Case>) {
    for tenths in [0, 1, 7, 33, 99, 100, 101, 333, 999, 1000, 1001, u16::MAX] {
        for remainder in [0, u16::MAX] {
            let title = format!("300 steps of {tenths} tenths from remainders of {remainder}");
            let case = Case::on(title, &[0x7400]).durations(7_777).duration(0x74, tenths);
            let case = case.remainders(remainder, remainder).timers(0xFF00, 0xFFF0);
            cases.push(case.steps(300));
        }
    }
}

/// One timer with a remainder, the other without; one at its end, the other not.
fn apart(cases: &mut Vec<Case>) {
    for (a, b) in [(99, 0), (0, 999), (65_500, 0), (0, 65_500), (98, 999), (99, 998)] {
        for (timer_a, timer_b) in [(0xFFFF, 0), (0, 0xFFFF), (0xFFFF, 0xFFFF)] {
            let title = format!("1 tenth on {a} and {b}, timers {timer_a:04X} and {timer_b:04X}");
            cases.push(nop(title, 1).timers(timer_a, timer_b).remainders(a, b));
        }
    }
}

/// All cases of this file.
pub(super) fn cases(cases: &mut Vec<Case>) {
    ends(cases);
    halted(cases);
    many(cases);
    apart(cases);
}
