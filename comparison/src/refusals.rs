//! Calls that are refused for a length, a budget or a counter, and calls that just are not.

use crate::images::image;
use crate::numbers::Numbers;
use crate::packed::{set_counter, STATE_WORDS};
use crate::subject::{Call, Lent};

/// The longest run.
pub const BUDGET: u32 = 1_000_000;

/// Gives some list another length, or none, and makes a call at the limits.
pub fn near_refusal(numbers: &mut Numbers, lent: &mut Lent, mut durations: Vec<u16>) -> Call {
    let memory = memory_words(numbers);
    lent.state.resize(STATE_WORDS, 0);
    lent.memory.resize(memory, 0);
    lent.pages.resize(512, 0);
    lent.ports.resize(1024, 0);
    for word in &mut lent.state {
        *word = numbers.word();
    }
    if numbers.once_in(8) {
        lent.state.resize(numbers.pick(&[0, 1, 32, 34, 255, 257, 512]), 0);
    }
    if numbers.once_in(6) {
        lent.pages.resize(numbers.pick(&[0, 1, 256, 511, 513, 1024]), 7);
    }
    if numbers.once_in(6) {
        lent.ports.resize(numbers.pick(&[0, 1, 512, 1023, 1025, 2048]), 7);
    }
    if numbers.once_in(3) {
        return Call::Load(image(numbers, memory));
    }
    if numbers.once_in(4) {
        durations.resize(numbers.pick(&[0, 1, 256, 258, 300]), 7);
    }
    let budget = match numbers.below(16) {
        0..=3 => numbers.pick(&[BUDGET + 1, BUDGET + 2, u32::MAX, 0x8000_0000]),
        4 => numbers.pick(&[0, 1]),
        _ => numbers.below(40),
    };
    if numbers.once_in(2) {
        near_the_end(numbers, lent, budget);
    }
    Call::Run { budget, durations }
}

/// A memory's length: mostly one that is accepted, else one next to it.
fn memory_words(numbers: &mut Numbers) -> usize {
    if numbers.once_in(300) {
        return numbers.pick(&[1_048_576, 1_048_577, 1_052_672, 1_048_575]);
    }
    let refused = numbers.pick(&[0, 1, 2048, 4095, 4097, 6144, 8191, 8193]);
    numbers.pick(&[4096, 8192, 4096, 12_288, refused])
}

/// Sets the counter so that it has just room for the budget, or just not.
fn near_the_end(numbers: &mut Numbers, lent: &mut Lent, budget: u32) {
    let counter = (u32::MAX - budget).wrapping_add(numbers.below(4)).wrapping_sub(2);
    if lent.state.len() == STATE_WORDS {
        set_counter(&mut lent.state, counter);
    }
}
