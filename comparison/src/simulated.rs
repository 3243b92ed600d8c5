//! The second simulator behind the packed state: whole runs, or one step at a time and watched.

use crate::accesses::refusals;
use crate::packed::{pack, unpack, WRONG_STATE};
use crate::subject::{Lent, Subject};
use crate::watch::{next, Seen};
use simulator::State;

/// The second simulator.
pub struct Simulated;

/// The second simulator, one step at a time, with a watcher beside it.
pub struct Stepped<W> {
    pub watcher: W,
}

/// Looks at every step; one that changes what it sees makes a machine with a mistake.
pub trait Watcher {
    /// Sees one step: what was known of it before, the state and the memory after it.
    fn stepped(&mut self, seen: &Seen, after: &mut State, memory: &mut [u16]);
    /// Sees the answer of a run.
    fn ran(&mut self, _answer: u32) {}
    /// Sees a load: how many bytes its image has, and its answer.
    fn loaded(&mut self, _bytes: usize, _answer: u32) {}
}

/// The longest run that is made one step at a time.
const STEPPED: u32 = 4096;

impl Subject for Simulated {
    fn run(&mut self, budget: u32, durations: &[u16], lent: &mut Lent) -> u32 {
        with_state(lent, |state, lent| whole(budget, durations, state, lent))
    }

    fn load(&mut self, image: &[u8], lent: &mut Lent) -> u32 {
        with_state(lent, |state, lent| {
            let Lent { memory, pages, ports, .. } = lent;
            *state = simulator::load(image, memory, pages, ports)?;
            Ok(())
        })
    }
}

impl<W: Watcher> Subject for Stepped<W> {
    fn run(&mut self, budget: u32, durations: &[u16], lent: &mut Lent) -> u32 {
        let answer = with_state(lent, |state, lent| self.steps(budget, durations, state, lent));
        self.watcher.ran(answer);
        answer
    }

    fn load(&mut self, image: &[u8], lent: &mut Lent) -> u32 {
        let answer = Simulated.load(image, lent);
        self.watcher.loaded(image.len(), answer);
        answer
    }
}

impl<W: Watcher> Stepped<W> {
    /// A run step by step; refused, empty and very long ones are left to the simulator.
    fn steps(
        &mut self,
        budget: u32,
        durations: &[u16],
        state: &mut State,
        lent: &mut Lent,
    ) -> Result<(), u32> {
        if budget == 0 || budget > STEPPED || state.counter.checked_add(budget).is_none() {
            return whole(budget, durations, state, lent);
        }
        for _ in 0..budget {
            let (before, next) = (state.clone(), next(state, &lent.memory, &lent.pages));
            let refusals = refusals(state, &lent.memory, &lent.pages, next);
            whole(1, durations, state, lent)?;
            let seen = Seen { before: &before, next, durations, refusals };
            self.watcher.stepped(&seen, state, &mut lent.memory);
        }
        Ok(())
    }
}

/// A run by the simulator itself.
fn whole(budget: u32, durations: &[u16], state: &mut State, lent: &mut Lent) -> Result<(), u32> {
    let Lent { memory, pages, ports, .. } = lent;
    simulator::run(state, memory, pages, ports, durations, budget)
}

/// A call with the packed state taken apart; it is packed again unless the call is refused.
fn with_state(lent: &mut Lent, call: impl FnOnce(&mut State, &mut Lent) -> Result<(), u32>) -> u32 {
    let Some(mut state) = unpack(&lent.state) else {
        return WRONG_STATE;
    };
    match call(&mut state, lent) {
        Ok(()) => {
            lent.state.copy_from_slice(&pack(&state));
            0
        }
        Err(refusal) => refusal,
    }
}
