//! Mistakes with the packed status in whole calls.

use crate::common::caught;
use comparison::packed::{MFS, STATE_WORDS};
use comparison::{Lent, Simulated, Subject};

/// A mistake that changes what is lent, once a call is made: the number of steps or nothing for a load, the answer, the status
/// before, what is lent.
type Call = fn(Option<u32>, u32, u16, &mut Lent);

/// A simulator with such a mistake.
struct WrongCall(Call);

impl WrongCall {
    /// Makes a call and then the mistake, where the state has its length.
    fn made(&self, steps: Option<u32>, lent: &mut Lent, call: impl Fn(&mut Lent) -> u32) -> u32 {
        let before = lent.state.get(MFS).copied().unwrap_or_default();
        let answer = call(lent);
        if lent.state.len() == STATE_WORDS {
            (self.0)(steps, answer, before, lent);
        }
        answer
    }
}

impl Subject for WrongCall {
    fn run(&mut self, budget: u32, durations: &[u16], lent: &mut Lent) -> u32 {
        self.made(Some(budget), lent, |lent| Simulated.run(budget, durations, lent))
    }

    fn load(&mut self, image: &[u8], lent: &mut Lent) -> u32 {
        self.made(None, lent, |lent| Simulated.load(image, lent))
    }
}

/// The mistakes.
const MISTAKES: [(&str, Call); 6] = [
    ("a refused run clears the status", |steps, answer, _, lent| {
        if steps.is_some() && answer != 0 {
            lent.state[MFS] = 0;
        }
    }),
    ("a refused load clears it", |steps, answer, _, lent| {
        if steps.is_none() && answer != 0 {
            lent.state[MFS] = 0;
        }
    }),
    ("a load keeps it", |steps, answer, before, lent| {
        if (steps, answer) == (None, 0) {
            lent.state[MFS] = before;
        }
    }),
    ("a run of no steps clears it", |steps, answer, _, lent| {
        if (steps, answer) == (Some(0), 0) {
            lent.state[MFS] = 0;
        }
    }),
    ("no run keeps it", |steps, answer, _, lent| {
        if steps.is_some() && answer == 0 {
            lent.state[MFS] = 0;
        }
    }),
    ("it is packed one word further", |_, answer, _, lent| {
        if answer == 0 {
            lent.state.swap(MFS, MFS + 1);
        }
    }),
];

#[test]
fn mistakes_in_a_call() {
    for (what, call) in MISTAKES {
        caught(what, &mut WrongCall(call));
    }
}
