//! The machine with everything lent to it: one step, the tick at its end, and a run of steps.

use crate::questions;
use crate::state::{State, DURATIONS, MACHINE_ERROR, PAGE_REGISTERS, PORTS};

/// The number of the duration of a step that fetches no first word; the others are the opcodes.
const NO_FIRST_WORD: usize = 256;
/// Timer A rises once in 100 tenths of a microsecond, timer B once in 1,000 (4.4.5).
const UNIT_A: u32 = 100;
const UNIT_B: u32 = 1_000;

/// Why an instruction is given up: the bit that it sets in FT (4.4.2.3) and, where the address
/// lookup refused, the memory fault status that it leaves (4.4.2.8).
#[derive(Clone, Copy, Debug, PartialEq, Eq)]
pub(crate) struct Fault {
    bit: u16,
    status: Option<u16>,
}

impl Fault {
    /// Bit 5: an unknown input/output command.
    pub(crate) const COMMAND: Fault = Fault { bit: 0x8000 >> 5, status: None };
    /// Bit 9: an illegal instruction.
    pub(crate) const ILLEGAL: Fault = Fault { bit: 0x8000 >> 9, status: None };
    /// Bit 10: a privileged instruction with PS other than 0.
    pub(crate) const PRIVILEGED: Fault = Fault { bit: 0x8000 >> 10, status: None };

    /// Bit 0, for a lock, execute protection or write protection in the page register of a status.
    #[cold]
    pub(crate) fn protection(status: u16) -> Fault {
        Fault { bit: 0x8000, status: Some(status) }
    }

    /// Bit 8, for a physical address outside the memory that the page register of a status gave.
    #[cold]
    pub(crate) fn address(status: u16) -> Fault {
        Fault { bit: 0x8000 >> 8, status: Some(status) }
    }
}

/// What an instruction comes to: done, or given up with nothing changed.
pub(crate) type Done = Result<(), Fault>;

/// The state together with the lent memory, page registers, ports and durations.
pub(crate) struct Machine<'a> {
    pub(crate) state: &'a mut State,
    pub(crate) memory: &'a mut [u16],
    pub(crate) pages: &'a mut [u16; PAGE_REGISTERS],
    pub(crate) ports: &'a mut [u16; PORTS],
    pub(crate) durations: &'a [u16; DURATIONS],
}

impl Machine<'_> {
    /// Makes one step: enters an interrupt or runs one instruction, then ticks.
    pub(crate) fn step(&mut self) {
        let takeable = self.state.takeable();
        let number = if !self.state.hold && takeable != 0 {
            self.enter(takeable.leading_zeros() as u16);
            NO_FIRST_WORD
        } else {
            self.state.hold = false;
            self.instruction()
        };
        self.tick(self.durations[number]);
    }

    /// Fetches and runs one instruction, and gives the number of its duration: the opcode of the
    /// first word, whatever comes of it.
    fn instruction(&mut self) -> usize {
        match self.fetch() {
            Ok(word) => {
                if let Err(fault) = self.perform(word) {
                    self.raise(fault);
                }
                usize::from(word >> 8)
            }
            Err(fault) => {
                self.raise(fault);
                NO_FIRST_WORD
            }
        }
    }

    /// Marks a fault and the machine error interrupt; a refusal of the lookup leaves its status.
    pub(crate) fn raise(&mut self, fault: Fault) {
        self.state.ft |= fault.bit;
        self.state.pi |= MACHINE_ERROR;
        if let Some(status) = fault.status {
            self.state.mfs = status;
        }
    }

    /// The end of every step: the counter, then the timers that run (4.4.5), which have got on by
    /// the duration of the step. Passing FFFF to 0000 asks for interrupt 7 or 9.
    fn tick(&mut self, duration: u16) {
        let state = &mut *self.state;
        state.counter = state.counter.wrapping_add(1);
        if state.timer_a_running
            && passes(&mut state.timer_a, &mut state.remainder_a, duration, UNIT_A)
        {
            state.pi |= 0x8000 >> 7;
        }
        if state.timer_b_running
            && passes(&mut state.timer_b, &mut state.remainder_b, duration, UNIT_B)
        {
            state.pi |= 0x8000 >> 9;
        }
    }
}

/// Adds a duration to the remainder of a timer; the timer rises once for each whole unit in the
/// sum, and what is left is its remainder. Tells whether it passed from FFFF to 0000.
fn passes(timer: &mut u16, remainder: &mut u16, duration: u16, unit: u32) -> bool {
    let tenths = u32::from(*remainder) + u32::from(duration);
    let risen = u32::from(*timer) + tenths / unit;
    *timer = risen as u16;
    *remainder = (tenths % unit) as u16;
    risen > 0xFFFF
}

/// Makes one step.
///
/// # Panics
/// When there are not 512 page registers, 1,024 ports and 257 durations.
pub fn step(
    state: &mut State,
    memory: &mut [u16],
    pages: &mut [u16],
    ports: &mut [u16],
    durations: &[u16],
) {
    let pages = pages.try_into().expect("512 page registers");
    let ports = ports.try_into().expect("1,024 ports");
    let durations = durations.try_into().expect("257 durations");
    Machine { state, memory, pages, ports, durations }.step();
}

/// Makes exactly `budget` steps, or answers the number of the question that refused the call.
///
/// # Errors
/// 1 to 5 and 17, with everything unchanged.
pub fn run(
    state: &mut State,
    memory: &mut [u16],
    pages: &mut [u16],
    ports: &mut [u16],
    durations: &[u16],
    budget: u32,
) -> Result<(), u32> {
    questions::memory(memory)?;
    let pages = questions::pages(pages)?;
    let ports = questions::ports(ports)?;
    let durations = questions::durations(durations)?;
    questions::budget(state.counter, budget)?;
    let mut machine = Machine { state, memory, pages, ports, durations };
    for _ in 0..budget {
        machine.step();
    }
    Ok(())
}
