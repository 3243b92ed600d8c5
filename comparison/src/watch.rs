//! What the next step is about to do: enter an interrupt, or run which instruction.

use crate::lookup::{Access, Part, Refused, View};
use crate::packed::DURATIONS;
use crate::shapes::{shape, Shape};
use simulator::State;

/// The opcode of BEX.
pub const BEX: u16 = 0x77;

/// What a step does.
#[derive(Clone, Copy, Debug, PartialEq, Eq)]
pub enum Next {
    /// Enters the interrupt of this number.
    Entry(usize),
    /// Runs the instruction with this first word, and for XIO this command.
    Instruction { first: u16, command: Option<u16> },
    /// Has its first fetch refused.
    Refused,
}

impl Next {
    /// The number of the duration that the step takes: the opcode of its first word, or the last.
    pub fn number(self) -> usize {
        match self {
            Next::Instruction { first, .. } => usize::from(first >> 8),
            Next::Entry(_) | Next::Refused => DURATIONS - 1,
        }
    }
}

/// What is known of a step before it is made: the state, what it does, the durations lent to it,
/// and the accesses that are refused, in the order of their checks.
pub struct Seen<'a> {
    pub before: &'a State,
    pub next: Next,
    pub durations: &'a [u16],
    pub refusals: Vec<Refused>,
}

impl Seen<'_> {
    /// How long the step takes.
    pub fn duration(&self) -> u16 {
        self.durations[self.next.number()]
    }

    /// The first word of an XIO with this command that is carried out.
    pub fn commanded(&self, code: u16) -> Option<u16> {
        match self.next {
            Next::Instruction { first, command } if command == Some(code) => {
                (self.before.sw & 0x00F0 == 0).then_some(first)
            }
            _ => None,
        }
    }

    /// Whether the step is an entry, which BEX is too.
    pub fn enters(&self) -> bool {
        match self.next {
            Next::Entry(_) => true,
            Next::Instruction { first, .. } => first >> 8 == BEX,
            Next::Refused => false,
        }
    }

    /// The refused access that the memory fault status shows: the first of an instruction; of an
    /// entry the first store, or else the last word that it reads.
    pub fn shown(&self) -> Option<&Refused> {
        if !self.enters() {
            return self.refusals.first();
        }
        let store = self.refusals.iter().find(|refused| refused.part == Part::Linkage);
        store.or(self.refusals.last())
    }
}

/// What the next step of a machine does.
pub fn next(state: &State, memory: &[u16], pages: &[u16]) -> Next {
    let masked = if state.enabled { state.mk } else { state.mk & 0x4000 };
    let takeable = state.pi & (0x8400 | masked);
    if takeable != 0 && !state.hold {
        return Next::Entry(takeable.leading_zeros() as usize);
    }
    let view = View::running(state, memory, pages);
    let Ok(first) = view.word(Access::Fetch, state.ic) else {
        return Next::Refused;
    };
    let mut command = None;
    if shape((first >> 8) as u8) == Some(Shape::Command) {
        let index = usize::from(first & 0xF);
        let index = if index == 0 { 0 } else { state.r[index] };
        let second = view.word(Access::Fetch, state.ic.wrapping_add(1));
        command = second.ok().map(|second| second.wrapping_add(index));
    }
    Next::Instruction { first, command }
}
