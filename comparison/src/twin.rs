//! The twin, through the wrapper over its C interface.

use crate::subject::{Lent, Subject};
use twin1750::{load_words, run_words, Refusal};

/// The proved twin.
pub struct Twin;

impl Subject for Twin {
    fn run(&mut self, budget: u32, durations: &[u16], lent: &mut Lent) -> u32 {
        let Lent { state, memory, pages, ports } = lent;
        answer(run_words(budget, durations, state, memory, pages, ports))
    }

    fn load(&mut self, image: &[u8], lent: &mut Lent) -> u32 {
        let Lent { state, memory, pages, ports } = lent;
        answer(load_words(image, state, memory, pages, ports))
    }
}

/// 0, or the number of a refusal.
fn answer(result: Result<(), Refusal>) -> u32 {
    result.map_or_else(Refusal::number, |()| 0)
}
