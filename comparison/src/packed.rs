//! The packed state of the C interface, in the wrapper's layout, and the simulator's state that it stands for.

use simulator::State;
pub use twin1750::layout::*;
use twin1750::Refusal;

/// The answer where the packed state has another number of words.
pub const WRONG_STATE: u32 = Refusal::State as u32;

/// The state in packed words, nothing for another number of words.
pub fn unpack(words: &[u16]) -> Option<State> {
    let state = twin1750::State::unpack(words.try_into().ok()?);
    Some(State {
        r: state.regs,
        ic: state.ic,
        sw: state.sw,
        mk: state.mk,
        pi: state.pi,
        ft: state.ft,
        mfs: state.mfs,
        enabled: state.enabled,
        hold: state.hold,
        timer_a: state.timer_a,
        timer_b: state.timer_b,
        remainder_a: state.remainder_a,
        remainder_b: state.remainder_b,
        timer_a_running: state.a_runs,
        timer_b_running: state.b_runs,
        counter: state.counter,
    })
}

/// The packed words of a state.
pub fn pack(state: &State) -> [u16; STATE_WORDS] {
    let state = twin1750::State {
        regs: state.r,
        ic: state.ic,
        sw: state.sw,
        mk: state.mk,
        pi: state.pi,
        ft: state.ft,
        mfs: state.mfs,
        enabled: state.enabled,
        hold: state.hold,
        timer_a: state.timer_a,
        timer_b: state.timer_b,
        remainder_a: state.remainder_a,
        remainder_b: state.remainder_b,
        a_runs: state.timer_a_running,
        b_runs: state.timer_b_running,
        counter: state.counter,
    };
    state.pack()
}

/// Puts a counter into packed words.
pub fn set_counter(words: &mut [u16], counter: u32) {
    words[COUNTER_HIGH] = (counter >> 16) as u16;
    words[COUNTER_LOW] = counter as u16;
}

/// Which words no part of the state has: those that are 0 where every word is given as ones.
pub fn unused() -> [bool; STATE_WORDS] {
    twin1750::State::unpack(&[0xFFFF; STATE_WORDS]).pack().map(|word| word == 0)
}

/// The name of a word of a packed state.
pub fn name(word: usize) -> String {
    let name = match word {
        0..=15 => return format!("R{word}"),
        IC => "IC",
        SW => "SW",
        MK => "MK",
        PI => "PI",
        FT => "FT",
        MARKS => "marks",
        TIMER_A => "timer A",
        TIMER_B => "timer B",
        REMAINDER_A => "remainder A",
        REMAINDER_B => "remainder B",
        MFS => "MFS",
        COUNTER_HIGH => "counter 1",
        COUNTER_LOW => "counter 2",
        _ => return format!("state word {word}"),
    };
    name.to_string()
}
