//! Mistakes in runs as a whole: question 17, the packed remainders, the list that is lent.

use crate::common::caught;
use comparison::packed::{DURATIONS, REMAINDER_A, REMAINDER_B};
use comparison::{Lent, Simulated, Subject};

/// A mistake in a run as a whole: budget, durations, what is lent, and the answer.
type Run = fn(u32, &[u16], &mut Lent) -> u32;

/// A simulator with such a mistake.
struct WrongRun(Run);

impl Subject for WrongRun {
    fn run(&mut self, budget: u32, durations: &[u16], lent: &mut Lent) -> u32 {
        (self.0)(budget, durations, lent)
    }

    fn load(&mut self, image: &[u8], lent: &mut Lent) -> u32 {
        Simulated.load(image, lent)
    }
}

/// Mistakes in runs as a whole.
const RUNS: [(&str, Run); 8] = [
    ("17 is asked after 4", |budget, durations, lent| {
        match Simulated.run(budget, durations, lent) {
            17 if budget > 1_000_000 => 4,
            answer => answer,
        }
    }),
    ("17 is asked after 5", |budget, durations, lent| {
        match Simulated.run(budget, durations, lent) {
            17 if Simulated.run(budget, &[0; DURATIONS], &mut lent.clone()) == 5 => 5,
            answer => answer,
        }
    }),
    ("17 is asked before 3", |budget, durations, lent| {
        match Simulated.run(budget, durations, lent) {
            3 if durations.len() != DURATIONS => 17,
            answer => answer,
        }
    }),
    ("17 is not asked of a run of no steps", |budget, durations, lent| {
        let durations = if budget == 0 { &[0; DURATIONS] } else { durations };
        Simulated.run(budget, durations, lent)
    }),
    ("258 durations are accepted", |budget, durations, lent| {
        let list = if durations.len() == 258 { &durations[..DURATIONS] } else { durations };
        Simulated.run(budget, list, lent)
    }),
    ("the remainders are exchanged when they are packed", |budget, durations, lent| {
        let answer = Simulated.run(budget, durations, lent);
        if answer == 0 {
            lent.state.swap(REMAINDER_A, REMAINDER_B);
        }
        answer
    }),
    ("a refusal by 5 clears a remainder", |budget, durations, lent| {
        let answer = Simulated.run(budget, durations, lent);
        if answer == 5 {
            lent.state[REMAINDER_B] = 0;
        }
        answer
    }),
    ("a refusal by 17 clears what is not looked at", |budget, durations, lent| {
        let answer = Simulated.run(budget, durations, lent);
        if answer == 17 {
            lent.state[27] = 0;
        }
        answer
    }),
];

#[test]
fn mistakes_in_a_run() {
    for (what, run) in RUNS {
        caught(what, &mut WrongRun(run));
    }
}

/// A simulator that uses the durations of its first run for all.
struct FirstList(Vec<u16>);

impl Subject for FirstList {
    fn run(&mut self, budget: u32, durations: &[u16], lent: &mut Lent) -> u32 {
        if self.0.is_empty() && durations.len() == DURATIONS {
            self.0 = durations.to_vec();
        }
        let list = if durations.len() == DURATIONS { &self.0 } else { durations };
        Simulated.run(budget, list, lent)
    }

    fn load(&mut self, image: &[u8], lent: &mut Lent) -> u32 {
        Simulated.load(image, lent)
    }
}

/// A simulator whose loads keep the remainder of timer B.
struct Kept;

impl Subject for Kept {
    fn run(&mut self, budget: u32, durations: &[u16], lent: &mut Lent) -> u32 {
        Simulated.run(budget, durations, lent)
    }

    fn load(&mut self, image: &[u8], lent: &mut Lent) -> u32 {
        let kept = lent.state.get(REMAINDER_B).copied();
        let answer = Simulated.load(image, lent);
        if let (0, Some(kept)) = (answer, kept) {
            lent.state[REMAINDER_B] = kept;
        }
        answer
    }
}

#[test]
fn mistakes_between_calls() {
    caught("the durations of the first run stay", &mut FirstList(Vec::new()));
    caught("a load keeps a remainder", &mut Kept);
}
