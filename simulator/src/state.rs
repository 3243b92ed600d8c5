//! The processor's state, its reset, and the condition status.

/// How many page registers there are: 256 for instructions, then 256 for operands.
pub const PAGE_REGISTERS: usize = 512;
/// How many input/output ports there are.
pub const PORTS: usize = 1024;
/// How many durations there are: one for each opcode, and a last one for a step that fetches no
/// first word.
pub const DURATIONS: usize = 257;

/// Fixed point overflow, interrupt 4.
pub(crate) const FIXED_OVERFLOW: u16 = 0x8000 >> 4;
/// Floating point overflow, interrupt 3.
pub(crate) const FLOAT_OVERFLOW: u16 = 0x8000 >> 3;
/// Floating point underflow, interrupt 6.
pub(crate) const FLOAT_UNDERFLOW: u16 = 0x8000 >> 6;
/// Machine error, interrupt 1.
pub(crate) const MACHINE_ERROR: u16 = 0x8000 >> 1;

/// Condition status bits (4.4.2.2): carry, positive, zero, negative.
pub(crate) const CARRY: u16 = 8;
pub(crate) const POSITIVE: u16 = 4;
pub(crate) const ZERO: u16 = 2;
pub(crate) const NEGATIVE: u16 = 1;

/// Everything the processor remembers besides memory, page registers and ports.
#[derive(Clone, Debug, PartialEq, Eq)]
pub struct State {
    /// The general registers R0 to R15.
    pub r: [u16; 16],
    /// The instruction counter.
    pub ic: u16,
    /// The status word: CS bits 0 to 3, PS bits 8 to 11, AS bits 12 to 15.
    pub sw: u16,
    /// The interrupt mask.
    pub mk: u16,
    /// The pending interrupts.
    pub pi: u16,
    /// The faults.
    pub ft: u16,
    /// The memory fault status (4.4.2.8): the page register of the lookup's last refusal that set
    /// a fault.
    pub mfs: u16,
    /// Whether interrupts are enabled.
    pub enabled: bool,
    /// The hold mark: no interrupt before one more instruction has run.
    pub hold: bool,
    /// Timer A.
    pub timer_a: u16,
    /// Timer B.
    pub timer_b: u16,
    /// The tenths of a microsecond that have passed since timer A rose.
    pub remainder_a: u16,
    /// The tenths of a microsecond that have passed since timer B rose.
    pub remainder_b: u16,
    /// Whether timer A runs.
    pub timer_a_running: bool,
    /// Whether timer B runs.
    pub timer_b_running: bool,
    /// How many steps have been made since reset.
    pub counter: u32,
}

impl Default for State {
    /// The reset state (4.4.4.1): all zero, interrupts disabled, both timers running.
    fn default() -> State {
        State {
            r: [0; 16],
            ic: 0,
            sw: 0,
            mk: 0,
            pi: 0,
            ft: 0,
            mfs: 0,
            enabled: false,
            hold: false,
            timer_a: 0,
            timer_b: 0,
            remainder_a: 0,
            remainder_b: 0,
            timer_a_running: true,
            timer_b_running: true,
            counter: 0,
        }
    }
}

impl State {
    /// The processor state PS, which is the access key.
    pub(crate) fn key(&self) -> u16 {
        (self.sw >> 4) & 0xF
    }

    /// The address state AS, which chooses the group of page registers.
    pub(crate) fn group(&self) -> u16 {
        self.sw & 0xF
    }

    /// The condition status CS.
    pub(crate) fn condition(&self) -> u16 {
        self.sw >> 12
    }

    /// Sets all four bits of CS and keeps the rest of SW.
    pub(crate) fn set_condition(&mut self, condition: u16) {
        self.sw = (self.sw & 0x0FFF) | (condition << 12);
    }

    /// 5.1 OTA: loads timer A, clears its remainder and starts it.
    pub(crate) fn load_timer_a(&mut self, value: u16) {
        (self.timer_a, self.remainder_a, self.timer_a_running) = (value, 0, true);
    }

    /// 5.1 OTB: loads timer B, clears its remainder and starts it.
    pub(crate) fn load_timer_b(&mut self, value: u16) {
        (self.timer_b, self.remainder_b, self.timer_b_running) = (value, 0, true);
    }

    /// The pending interrupts that may be entered now, the hold mark aside.
    pub(crate) fn takeable(&self) -> u16 {
        let masked = if self.enabled { self.mk } else { self.mk & MACHINE_ERROR };
        let always = 0x8000 | (0x8000 >> 5);
        self.pi & (always | masked)
    }
}

/// The condition status of a result by its sign, without carry.
pub(crate) fn sign_condition(value: i64) -> u16 {
    match value {
        0 => ZERO,
        1.. => POSITIVE,
        _ => NEGATIVE,
    }
}

/// Resets everything: words and ports 0, every page register its own page number.
pub fn reset(memory: &mut [u16], pages: &mut [u16], ports: &mut [u16]) -> State {
    memory.fill(0);
    ports.fill(0);
    for (index, register) in pages.iter_mut().enumerate() {
        *register = (index % 16) as u16;
    }
    State::default()
}
