//! A difference: where it was found, the fewest steps that show it, and what differs.

use crate::accesses::refusals;
use crate::compare::{Batch, Pair};
use crate::packed::{name, unpack, unused, IC, STATE_WORDS};
use crate::subject::{Call, Lent};
use crate::watch::next;
use std::fmt;

/// How many differing words are printed.
const PRINTED: usize = 24;
/// How many bytes of an image are printed.
const IMAGE_BYTES: usize = 72;

/// Where two machines differ.
pub struct Difference {
    pub seed: u64,
    pub case: u64,
    pub round: u32,
    call: Call,
    /// The fewest steps of the call that show it; 0 where it is no matter of steps.
    pub steps: u32,
    answers: [u32; 2],
    before: Lent,
    left: Lent,
    right: Lent,
}

impl Difference {
    /// Makes the case again up to the call, and that call again with as few steps as show it.
    pub fn found(batch: &mut Batch, case: u64, round: u32, answers: [u32; 2]) -> Difference {
        let mut pair = Pair::new(batch.seed, case);
        for _ in 0..round {
            let call = pair.next();
            batch.call(&call, &mut pair);
        }
        let call = pair.next();
        let start = pair.left.clone();
        let (steps, before) = match &call {
            Call::Run { budget, durations } if answers == [0, 0] => {
                fewest(batch, &mut pair, *budget, durations)
            }
            _ => (0, start.clone()),
        };
        let shortened = shortened(&call, steps);
        (pair.left, pair.right) = (start.clone(), start);
        let answers = batch.call(&shortened, &mut pair);
        let Pair { left, right, .. } = pair;
        Difference { seed: batch.seed, case, round, call, steps, answers, before, left, right }
    }
}

/// The same call with so many steps; 0 leaves it as it is.
fn shortened(call: &Call, steps: u32) -> Call {
    match call {
        Call::Run { durations, .. } if steps != 0 => {
            Call::Run { budget: steps, durations: durations.clone() }
        }
        _ => call.clone(),
    }
}

/// Goes step by step until the two differ: the number of steps, and the machine before the last.
fn fewest(batch: &mut Batch, pair: &mut Pair, budget: u32, durations: &[u16]) -> (u32, Lent) {
    let step = Call::Run { budget: 1, durations: durations.to_vec() };
    for steps in 1..=budget {
        let before = pair.left.clone();
        let answers = batch.call(&step, pair);
        if !pair.alike(answers) {
            return (steps, before);
        }
        if answers[0] != 0 {
            break;
        }
    }
    // Single steps agree: only the call as a whole shows it.
    (0, pair.left.clone())
}

impl fmt::Display for Difference {
    fn fmt(&self, f: &mut fmt::Formatter) -> fmt::Result {
        writeln!(f, "difference: seed {} case {} call {}", self.seed, self.case, self.round)?;
        match &self.call {
            Call::Run { budget, durations } if self.steps == 0 => {
                let list = format!("{} durations", durations.len());
                writeln!(f, "run of {budget} steps with {list}, shown by the whole call only")?;
            }
            Call::Run { budget, durations } => {
                writeln!(f, "run of {budget} steps; the fewest that show it: {}", self.steps)?;
                writeln!(f, "the last of them: {}", doing(&self.before, durations))?;
            }
            Call::Load(image) => {
                let shown = &image[..image.len().min(IMAGE_BYTES)];
                writeln!(f, "load of {} bytes, the first: {shown:02X?}", image.len())?;
            }
        }
        writeln!(f, "answers: {} and {}", self.answers[0], self.answers[1])?;
        writeln!(f, "state before  {:04X?}", parts(&self.before))?;
        writeln!(f, "simulator     {:04X?}", parts(&self.left))?;
        writeln!(f, "twin          {:04X?}", parts(&self.right))?;
        let words = differing(&self.left, &self.right);
        writeln!(f, "differing words: {} (simulator, twin)", words.len())?;
        for word in words.iter().take(PRINTED) {
            writeln!(f, "  {word}")?;
        }
        Ok(())
    }
}

/// The words of a packed state that some part has.
fn parts(lent: &Lent) -> Vec<u16> {
    lent.state.iter().zip(unused()).filter(|(_, unused)| !unused).map(|(word, _)| *word).collect()
}

/// What the next step of a machine does, in print, how long it takes, and which accesses are refused,
/// each with its memory fault status.
fn doing(lent: &Lent, durations: &[u16]) -> String {
    match unpack(&lent.state) {
        Some(state) => {
            let next = next(&state, &lent.memory, &lent.pages);
            let tenths = durations[next.number()];
            let refused: String = refusals(&state, &lent.memory, &lent.pages, next)
                .iter()
                .map(|r| format!("; {:?} {:04X} refused, {:04X}", r.part, r.address, r.status()))
                .collect();
            format!("{next:04X?} at {:04X}, {tenths} tenths{refused}", lent.state[IC])
        }
        None => format!("a state of {} words instead of {STATE_WORDS}", lent.state.len()),
    }
}

/// The words that differ, each with its name.
fn differing(left: &Lent, right: &Lent) -> Vec<String> {
    let lists = [
        (&left.state, &right.state, None),
        (&left.memory, &right.memory, Some("memory")),
        (&left.pages, &right.pages, Some("page register")),
        (&left.ports, &right.ports, Some("port")),
    ];
    let mut words = Vec::new();
    for (left, right, list) in lists {
        for (place, (one, other)) in left.iter().zip(right).enumerate() {
            if one != other {
                let name = list.map_or_else(|| name(place), |list| format!("{list} {place:04X}"));
                words.push(format!("{name}: {one:04X} {other:04X}"));
            }
        }
    }
    words
}
