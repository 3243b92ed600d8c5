//! What a step can come to for the timers, by name: the moments that the comparison has to reach.

use crate::watch::{Next, Seen};
use simulator::State;

/// One timer in a step: what it was before, what it is after.
struct Timer {
    timers: [u16; 2],
    remainders: [u16; 2],
    running: [bool; 2],
    unit: u32,
}

/// A step with both timers, and its duration.
pub struct Moment<'a> {
    seen: &'a Seen<'a>,
    after: &'a State,
    duration: u16,
    a: Timer,
    b: Timer,
}

impl<'a> Moment<'a> {
    /// The moment of a step.
    pub fn new(seen: &'a Seen<'a>, after: &'a State) -> Moment<'a> {
        let both = [seen.before, after];
        let a = Timer {
            timers: both.map(|state| state.timer_a),
            remainders: both.map(|state| state.remainder_a),
            running: both.map(|state| state.timer_a_running),
            unit: 100,
        };
        let b = Timer {
            timers: both.map(|state| state.timer_b),
            remainders: both.map(|state| state.remainder_b),
            running: both.map(|state| state.timer_b_running),
            unit: 1000,
        };
        Moment { seen, after, duration: seen.duration(), a, b }
    }

    /// How often a timer rises by the duration, none where it does not run in the end.
    fn rises(&self, timer: &Timer) -> u32 {
        let tenths = u32::from(timer.remainders[0]) + u32::from(self.duration);
        if timer.running[1] {
            tenths / timer.unit
        } else {
            0
        }
    }

    /// Whether a timer passes its end, by its rises and no command.
    fn passes(&self, timer: &Timer) -> bool {
        let [before, after] = timer.timers.map(u32::from);
        before + self.rises(timer) == after + 0x1_0000
    }

    /// Whether a timer has got another remainder than its rises leave.
    fn cleared(&self, timer: &Timer) -> bool {
        let tenths = u32::from(timer.remainders[0]) + u32::from(self.duration);
        timer.running[1] && u32::from(timer.remainders[1]) != tenths % timer.unit
    }

    /// Whether a timer that runs is halted, with a remainder, in a step that takes time.
    fn halted(&self, timer: &Timer) -> bool {
        timer.running == [true, false] && timer.remainders[0] != 0 && self.duration != 0
    }

    /// Whether a halted timer is started with a remainder, which it keeps.
    fn started(&self, timer: &Timer) -> bool {
        timer.running == [false, true] && timer.remainders[0] != 0 && !self.cleared(timer)
    }

    /// Whether a timer comes with a remainder of a unit or more, running in the end or not.
    fn large(&self, timer: &Timer, running: bool) -> bool {
        timer.running[1] == running && u32::from(timer.remainders[0]) >= timer.unit
    }

    /// Whether some timer runs, and no opcode has the last duration.
    fn told_apart(&self) -> bool {
        let [opcodes @ .., last] = self.seen.durations else { return false };
        (self.a.running[1] || self.b.running[1]) && !opcodes.contains(last)
    }

    /// Whether an instruction of this opcode shows that it does not take the last duration.
    fn opcode(&self, opcode: u16) -> bool {
        let Next::Instruction { first, .. } = self.seen.next else { return false };
        first >> 8 == opcode && self.told_apart()
    }

    /// Whether an instruction that sets this bit of FT shows that it does not take the last duration.
    fn fault(&self, bit: u16) -> bool {
        let new = self.after.ft & !self.seen.before.ft & bit != 0;
        new && matches!(self.seen.next, Next::Instruction { .. }) && self.told_apart()
    }
}

/// A moment's name, and whether a step is such a moment.
type Named = (&'static str, fn(&Moment) -> bool);

/// Every moment.
pub const MOMENTS: [Named; 29] = [
    ("a step of 0 tenths", |m| m.duration == 0),
    ("a step of 65,535 tenths", |m| m.duration == u16::MAX),
    ("timer A rises more than once", |m| m.rises(&m.a) > 1),
    ("timer B rises more than once", |m| m.rises(&m.b) > 1),
    ("timer A rises more than 255 times", |m| m.rises(&m.a) > 255),
    ("timer A passes its end to 0000", |m| m.passes(&m.a) && m.after.timer_a == 0),
    ("timer B passes its end to 0000", |m| m.passes(&m.b) && m.after.timer_b == 0),
    ("timer A passes its end and goes on", |m| m.passes(&m.a) && m.after.timer_a > 0),
    ("timer B passes its end and goes on", |m| m.passes(&m.b) && m.after.timer_b > 0),
    ("both timers pass their ends", |m| m.passes(&m.a) && m.passes(&m.b)),
    ("OTA clears a remainder", |m| m.cleared(&m.a)),
    ("OTB clears a remainder", |m| m.cleared(&m.b)),
    ("timer A halted with a remainder", |m| m.halted(&m.a)),
    ("timer B halted with a remainder", |m| m.halted(&m.b)),
    ("timer A started with a remainder", |m| m.started(&m.a)),
    ("timer B started with a remainder", |m| m.started(&m.b)),
    ("timer A runs with a remainder of 100 or more", |m| m.large(&m.a, true)),
    ("timer B runs with a remainder of 1,000 or more", |m| m.large(&m.b, true)),
    ("timer A halted with a remainder of 100 or more", |m| m.large(&m.a, false)),
    ("timer B halted with a remainder of 1,000 or more", |m| m.large(&m.b, false)),
    ("the duration of an entry", |m| matches!(m.seen.next, Next::Entry(_)) && m.told_apart()),
    ("the duration of a refused first fetch", |m| m.seen.next == Next::Refused && m.told_apart()),
    ("the duration of BEX", |m| m.opcode(0x77)),
    ("the duration of MOV that goes on", |m| m.opcode(0x93) && m.after.ic == m.seen.before.ic),
    ("the duration of a refused lock or protection", |m| m.fault(0x8000)),
    ("the duration of an illegal command", |m| m.fault(0x0400)),
    ("the duration of an access outside the memory", |m| m.fault(0x0080)),
    ("the duration of an illegal word", |m| m.fault(0x0040)),
    ("the duration of a privileged instruction", |m| m.fault(0x0020)),
];
