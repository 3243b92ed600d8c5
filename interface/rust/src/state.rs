//! The state with named parts, and its packed form.

use crate::layout::{
    A_RUNS, B_RUNS, COUNTER_HIGH, COUNTER_LOW, ENABLED, FT, HOLD, IC, MARKS, MFS, MK, PI,
    REMAINDER_A, REMAINDER_B, STATE_WORDS, SW, TIMER_A, TIMER_B,
};

/// The processor's state, without memory, page registers and ports.
///
/// The default has every word 0 and every mark off, so that both timers are stopped; a reset leaves them running, and
/// [`State::reset`] is the state that it leaves.
#[derive(Clone, Copy, Debug, Default, PartialEq, Eq)]
pub struct State {
    /// R0 to R15.
    pub regs: [u16; 16],
    /// The instruction counter.
    pub ic: u16,
    /// The status word.
    pub sw: u16,
    /// The interrupt mask.
    pub mk: u16,
    /// The pending interrupts.
    pub pi: u16,
    /// The faults.
    pub ft: u16,
    /// The memory fault status: which page register refused the most recent access that set a bit of FT. Bits 0 to 3 are the page,
    /// bit 11 is set for the instruction set, bits 12 to 15 are the group; a reset makes it 0.
    pub mfs: u16,
    /// Whether interrupts are enabled.
    pub enabled: bool,
    /// The hold mark: no interrupt is entered in the next step.
    pub hold: bool,
    /// Timer A.
    pub timer_a: u16,
    /// Timer B.
    pub timer_b: u16,
    /// The remainder of timer A: the tenths of a microsecond that it has counted and that are not yet a rise.
    pub remainder_a: u16,
    /// The remainder of timer B, likewise.
    pub remainder_b: u16,
    /// Whether timer A runs.
    pub a_runs: bool,
    /// Whether timer B runs.
    pub b_runs: bool,
    /// The step counter.
    pub counter: u32,
}

impl State {
    /// The state after a reset: all words 0, interrupts disabled, no hold, timers 0 and running. Loading an image starts from it,
    /// and loading one of no bytes leaves it.
    pub fn reset() -> State {
        State { a_runs: true, b_runs: true, ..State::default() }
    }

    /// The state as the words of the C interface; every word that no part has is 0.
    pub fn pack(&self) -> [u16; STATE_WORDS] {
        let marks = [
            (self.enabled, ENABLED),
            (self.hold, HOLD),
            (self.a_runs, A_RUNS),
            (self.b_runs, B_RUNS),
        ];
        let mut words = [0; STATE_WORDS];
        words[..16].copy_from_slice(&self.regs);
        words[IC] = self.ic;
        words[SW] = self.sw;
        words[MK] = self.mk;
        words[PI] = self.pi;
        words[FT] = self.ft;
        words[MARKS] = marks.iter().filter(|(on, _)| *on).map(|(_, weight)| weight).sum();
        words[TIMER_A] = self.timer_a;
        words[TIMER_B] = self.timer_b;
        words[REMAINDER_A] = self.remainder_a;
        words[REMAINDER_B] = self.remainder_b;
        words[MFS] = self.mfs;
        words[COUNTER_HIGH] = (self.counter >> 16) as u16;
        words[COUNTER_LOW] = (self.counter & 0xFFFF) as u16;
        words
    }

    /// The state of packed words; words that no part has and bits that are no marks are not looked at.
    pub fn unpack(words: &[u16; STATE_WORDS]) -> State {
        let mut regs = [0; 16];
        regs.copy_from_slice(&words[..16]);
        let marked = |weight| words[MARKS] & weight != 0;
        State {
            regs,
            ic: words[IC],
            sw: words[SW],
            mk: words[MK],
            pi: words[PI],
            ft: words[FT],
            enabled: marked(ENABLED),
            hold: marked(HOLD),
            timer_a: words[TIMER_A],
            timer_b: words[TIMER_B],
            remainder_a: words[REMAINDER_A],
            remainder_b: words[REMAINDER_B],
            mfs: words[MFS],
            a_runs: marked(A_RUNS),
            b_runs: marked(B_RUNS),
            counter: u32::from(words[COUNTER_HIGH]) << 16 | u32::from(words[COUNTER_LOW]),
        }
    }
}
