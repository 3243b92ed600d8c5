//! One case: a random machine and a series of calls, all from the case's own seed.

use crate::durations::durations;
use crate::images::image;
use crate::numbers::Numbers;
use crate::plant::plant;
use crate::refusals::{near_refusal, BUDGET};
use crate::scene::{scene, stir};
use crate::subject::{Call, Lent};

/// What the calls of a case are.
#[derive(Clone, Copy)]
enum Kind {
    /// A new state and a new instruction before each of many short runs.
    Single,
    /// Some runs of a few hundred steps.
    Stream,
    /// One run of many steps.
    Long,
    /// Images, each loaded and then run.
    Images,
    /// Lengths, budgets and counters at the limits.
    Refusals,
}

/// The calls that a case makes.
#[derive(Clone)]
pub struct Case {
    numbers: Numbers,
    kind: Kind,
    /// The durations that the next run is lent, if it is not lent others.
    durations: Vec<u16>,
    pub calls: u32,
    made: u32,
}

impl Case {
    /// The case of a number in the series of a seed, and the machine that it starts from.
    pub fn new(seed: u64, number: u64) -> (Case, Lent) {
        let mut numbers = Numbers::new(Numbers::new(seed).next() ^ number);
        numbers = Numbers::new(numbers.next());
        let (kind, calls) = match numbers.below(64) {
            0 => (Kind::Long, 1),
            1..=3 => (Kind::Images, 12),
            4..=5 => (Kind::Refusals, 12),
            6..=31 => (Kind::Stream, 12),
            _ => (Kind::Single, 192),
        };
        let lent = scene(&mut numbers);
        let durations = durations(&mut numbers);
        // A large memory takes long to compare.
        let calls = if lent.memory.len() > 65_536 { calls.min(8) } else { calls };
        (Case { numbers, kind, durations, calls, made: 0 }, lent)
    }

    /// Prepares the machine for the next call and gives that call; one run in four is lent other
    /// durations than the last one.
    pub fn next(&mut self, lent: &mut Lent) -> Call {
        let numbers = &mut self.numbers;
        self.made += 1;
        if numbers.once_in(4) {
            self.durations = durations(numbers);
        }
        let budget = match self.kind {
            Kind::Single => {
                stir(numbers, lent);
                plant(numbers, lent);
                1 + numbers.below(4)
            }
            Kind::Stream => {
                if numbers.once_in(2) {
                    stir(numbers, lent);
                }
                numbers.below(400)
            }
            Kind::Long if numbers.once_in(64) => BUDGET,
            Kind::Long => 5_000 + numbers.below(45_000),
            Kind::Images if self.made % 2 == 1 => {
                return Call::Load(image(numbers, lent.memory.len()));
            }
            Kind::Images => numbers.below(100),
            Kind::Refusals => return near_refusal(numbers, lent, self.durations.clone()),
        };
        Call::Run { budget, durations: self.durations.clone() }
    }
}
