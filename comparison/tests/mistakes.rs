//! The comparison of the second simulator with the twin can fail: with one mistake in the simulator
//! a difference is reported within the quick batch.

mod common;

use common::{agrees, caught, caught_in_steps, first_word, Mistake};
use comparison::{packed::STATE_WORDS, Lent, Next, Seen, Simulated, Subject};
use simulator::State;

/// Registers of a state from the one of a field on.
fn registers<const N: usize>(state: &State, field: u16) -> [u16; N] {
    std::array::from_fn(|distance| state.r[(usize::from(field & 0xF) + distance) % 16])
}

/// Whether two registers hold -1.0 of 32 bits each, the sum of the exponents 7F; for 48 bits the
/// third words are 0.
fn top_of_the_range([a, b]: [[u16; 3]; 2], extended: bool) -> bool {
    let one = |words: [u16; 3]| words[0] == 0x8000 && words[1] >> 8 == 0;
    let thirds = !extended || (a[2], b[2]) == (0, 0);
    one(a) && one(b) && thirds && i16::from(a[1] as i8) + i16::from(b[1] as i8) == 0x7F
}

/// Takes back the overflow of -1.0 times -1.0 at the top of the range, of FMR or EFMR.
fn without_overflow(seen: &Seen, after: &mut State, opcode: u16) {
    let Some(first) = first_word(seen, opcode) else { return };
    let factors = [registers(seen.before, first >> 4), registers(seen.before, first)];
    if top_of_the_range(factors, opcode == 0xCB) && seen.before.pi & 0x1000 == 0 {
        after.pi &= !0x1000;
    }
}

/// Mistakes in one step, most of them rare.
const MISTAKES: [(&str, Mistake); 11] = [
    ("FMR of -1.0 by -1.0, the sum of the exponents 7F", |seen, after, _| {
        without_overflow(seen, after, 0xC9);
    }),
    ("EFMR of -1.0 by -1.0, the sum of the exponents 7F", |seen, after, _| {
        without_overflow(seen, after, 0xCB);
    }),
    ("DSAR of all ones by 32", |seen, after, _| {
        let (Some(first), before) = (first_word(seen, 0x6E), seen.before) else { return };
        let count = registers::<1>(before, first) == [32];
        if count && registers(before, first >> 4) == [0xFFFF; 2] && before.pi & 0x0800 == 0 {
            after.pi &= !0x0800;
        }
    }),
    ("a bit of EFMR's result", |seen, after, _| {
        let Some(first) = first_word(seen, 0xCB) else { return };
        if after.r != seen.before.r {
            after.r[(usize::from((first >> 4) & 0xF) + 2) % 16] ^= 1;
        }
    }),
    ("timer B without its interrupt", |seen, after, _| {
        let before = seen.before;
        if after.timer_b == 0 && before.timer_b == 0xFFFF && before.pi & 0x0040 == 0 {
            after.pi &= !0x0040;
        }
    }),
    ("BEX leaves a pending bit 5", |seen, after, _| {
        if first_word(seen, 0x77).is_some() {
            after.pi |= seen.before.pi & 0x0400;
        }
    }),
    ("the hold mark loses a pending interrupt 0", |seen, after, _| {
        if seen.before.hold && seen.before.pi & 0x8000 != 0 && seen.next != Next::Entry(0) {
            after.pi &= !0x8000;
        }
    }),
    ("DISN by 16 without remainder", |seen, after, _| {
        let Some(first) = first_word(seen, 0xD3) else { return };
        if first & 0xF == 0xF {
            after.r[(usize::from((first >> 4) & 0xF) + 1) % 16] = 0;
        }
    }),
    ("PSHM of all registers changes one more word", |seen, after, memory| {
        let all = after.r[15] == seen.before.r[15].wrapping_sub(16);
        if first_word(seen, 0x9F).is_some() && all {
            memory[4095] ^= 1;
        }
    }),
    ("an entry of interrupt 13 keeps interrupts enabled", |seen, after, _| {
        if seen.next == Next::Entry(13) {
            after.enabled = seen.before.enabled;
        }
    }),
    ("FT bit 8 for a word beyond the memory is lost in POPM", |seen, after, _| {
        if first_word(seen, 0x8F).is_some() && seen.before.ft & 0x0080 == 0 {
            after.ft &= !0x0080;
        }
    }),
];

#[test]
fn nothing_is_reported_without_a_mistake() {
    agrees(|_, _, _| {});
}

#[test]
fn mistakes_in_a_step() {
    caught_in_steps(&MISTAKES);
}

/// The simulator with a mistake in a whole call, chosen by number.
struct WrongCall(u32);

impl Subject for WrongCall {
    fn run(&mut self, budget: u32, durations: &[u16], lent: &mut Lent) -> u32 {
        let rest = lent.state.last().copied();
        let answer = Simulated.run(budget, durations, lent);
        match (self.0, answer) {
            (0, 4) if budget == 1_000_001 => 0,
            (1, 0) => {
                lent.state[STATE_WORDS - 1] = rest.unwrap_or_default();
                0
            }
            (2, 5) => {
                lent.state[0] ^= 1;
                5
            }
            _ => answer,
        }
    }

    fn load(&mut self, image: &[u8], lent: &mut Lent) -> u32 {
        let before = lent.clone();
        match (self.0, image.len(), Simulated.load(image, lent)) {
            (3, _, 11) => 12,
            (4, _, 0) => {
                lent.ports[1023] = 1;
                0
            }
            (5, 0, 0) => {
                *lent = before;
                6
            }
            (6, 1, 6) => Simulated.load(&[], lent),
            (7, 0, 0) => {
                *lent = before;
                0
            }
            (8, 0, 3) => 0,
            (_, _, answer) => answer,
        }
    }
}

#[test]
fn mistakes_in_a_call() {
    let mistakes = [
        "one step more is accepted",
        "the last word of the packed state is kept",
        "a refusal changes a register",
        "another number for shared words",
        "a port is not reset",
        "an image of no bytes is refused by 6",
        "one byte is accepted",
        "an image of no bytes changes nothing",
        "an image of no bytes is not asked how many ports there are",
    ];
    for (number, what) in (0..).zip(mistakes) {
        caught(what, &mut WrongCall(number));
    }
}
