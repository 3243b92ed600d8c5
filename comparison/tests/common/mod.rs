//! The second simulator with a mistake, and whether the comparison with the twin reports it.

use comparison::{compare, Batch, Next, Seen, Stepped, Subject, Twin, Watcher, CASES, SEED};
use simulator::State;

/// A mistake in one step: what was known of it before, the state and the memory after.
pub type Mistake = fn(&Seen, &mut State, &mut [u16]);

/// A simulator that makes a mistake.
struct Wrong(Mistake);

impl Watcher for Wrong {
    fn stepped(&mut self, seen: &Seen, after: &mut State, memory: &mut [u16]) {
        (self.0)(seen, after, memory);
    }
}

/// The number of the first case in which a simulator differs from the twin, in so many cases.
fn reported(simulator: &mut dyn Subject, cases: u64) -> Option<u64> {
    let mut twin = Twin;
    let mut batch = Batch::new(SEED, simulator, &mut twin);
    let difference = compare(&mut batch, 0, |number| number < cases).err()?;
    let text = difference.to_string();
    assert!(text.contains(&format!("seed {SEED} case {}", difference.case)), "{text}");
    Some(difference.case)
}

/// Checks that a simulator with a mistake is reported within the quick batch, and in which case.
#[track_caller]
pub fn caught(what: &str, simulator: &mut dyn Subject) {
    let case = reported(simulator, CASES);
    assert!(case.is_some(), "not found: {what}");
    println!("{what}: case {}", case.unwrap_or_default());
}

/// Checks it of each mistake in a step.
#[track_caller]
pub fn caught_in_steps(mistakes: &[(&str, Mistake)]) {
    for (what, mistake) in mistakes {
        caught(what, &mut Stepped { watcher: Wrong(*mistake) });
    }
}

/// Checks that nothing is reported of what is no mistake, in the first cases.
#[track_caller]
pub fn agrees(right: Mistake) {
    assert_eq!(reported(&mut Stepped { watcher: Wrong(right) }, 300), None);
}

/// The first word of a step that runs an instruction with this opcode.
pub fn first_word(seen: &Seen, opcode: u16) -> Option<u16> {
    match seen.next {
        Next::Instruction { first, .. } if first >> 8 == opcode => Some(first),
        _ => None,
    }
}
