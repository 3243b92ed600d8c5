//! One instruction planted where IC stands, with operands that it is likely to reach.

use crate::code::instruction;
use crate::lookup::place;
use crate::numbers::Numbers;
use crate::packed::{FT, IC, SW};
use crate::shapes::{shape, Shape};
use crate::subject::Lent;
use crate::words::{address, akin, count, edge, float, limits, signs};

/// The command RPI, which clears FT too where its register names interrupt 1.
const RPI: u16 = 0x2004;

/// Puts an instruction where IC stands, with operands that it is likely to reach.
pub fn plant(numbers: &mut Numbers, lent: &mut Lent) {
    let [first, mut second] = instruction(numbers);
    let shape = shape((first >> 8) as u8);
    if !numbers.once_in(4) {
        match shape {
            Some(Shape::Base) => aim_base(numbers, lent, first, first & 0xFF),
            Some(Shape::BaseIndexed) => aim_base(numbers, lent, first, index(lent, first)),
            Some(Shape::Block) => block(numbers, lent, first),
            Some(Shape::Registers) => second_registers(numbers, lent, first),
            Some(Shape::Direct | Shape::Indirect) => {
                let accumulator = usize::from((first >> 4) & 0xF);
                let target = pointed(numbers, lent, second, shape == Some(Shape::Indirect));
                operand(numbers, lent, target, accumulator);
                second = second.wrapping_sub(index(lent, first));
            }
            Some(Shape::Command) => {
                if second == RPI && numbers.once_in(2) {
                    set(lent, usize::from((first >> 4) & 0xF), &[numbers.word() & 0xFFF0 | 1]);
                    lent.state[FT] = numbers.word();
                }
                second = second.wrapping_sub(index(lent, first));
            }
            _ => {}
        }
    }
    let ic = lent.state[IC];
    poke(lent, 0, ic, first);
    if shape.is_some_and(Shape::two_words) {
        poke(lent, 0, ic.wrapping_add(1), second);
    }
}

/// What the index register of an instruction holds.
fn index(lent: &Lent, first: u16) -> u16 {
    match usize::from(first & 0xF) {
        0 => 0,
        number => lent.state[number],
    }
}

/// Sets a base register so that the derived address is one with an operand.
fn aim_base(numbers: &mut Numbers, lent: &mut Lent, first: u16, distance: u16) {
    let target = address(numbers);
    let base = 12 + usize::from((first >> 8) & 3);
    lent.state[base] = target.wrapping_sub(distance);
    // R2 is the accumulator of single words, R0 and R1 that of the others.
    let accumulator = numbers.pick(&[0, 2]);
    operand(numbers, lent, target, accumulator);
}

/// At times makes RB and the next registers akin to RA and its next ones, or gives both floats at
/// the limits; gives most shifts by a register a count at the limits.
fn second_registers(numbers: &mut Numbers, lent: &mut Lent, first: u16) {
    let (a, b) = (usize::from((first >> 4) & 0xF), usize::from(first & 0xF));
    if (0x6A..=0x6F).contains(&(first >> 8)) && !numbers.once_in(3) {
        set(lent, a, &signs(numbers));
        set(lent, b, &[count(numbers)]);
        return;
    }
    match numbers.below(6) {
        0 | 1 => {
            let words = akin(numbers, registers(lent, a));
            set(lent, b, &words);
        }
        2 | 3 => {
            let [accumulator, operand] = limits(numbers);
            set(lent, a, &accumulator);
            set(lent, b, &operand);
        }
        _ => {}
    }
}

/// Three registers from one on.
fn registers(lent: &Lent, first: usize) -> [u16; 3] {
    [0, 1, 2].map(|distance| lent.state[(first + distance) % 16])
}

/// Sets registers from one on.
fn set(lent: &mut Lent, first: usize, words: &[u16]) {
    for (distance, word) in words.iter().enumerate() {
        lent.state[(first + distance) % 16] = *word;
    }
}

/// Sets the count of MOV to a small one and the stack of the others to an address.
fn block(numbers: &mut Numbers, lent: &mut Lent, first: u16) {
    let (a, b) = (usize::from((first >> 4) & 0xF), usize::from(first & 0xF));
    lent.state[15] = address(numbers);
    lent.state[a] = address(numbers);
    if first >> 8 == 0x93 {
        lent.state[b] = address(numbers);
        let any = numbers.word();
        lent.state[(a + 1) % 16] = numbers.pick(&[0, 1, 2, 3, 4, 40, any]);
    }
}

/// The address of an operand; where the mode is indirect a pointer to it is put there first.
fn pointed(numbers: &mut Numbers, lent: &mut Lent, target: u16, indirect: bool) -> u16 {
    if !indirect {
        return target;
    }
    let pointer = address(numbers);
    poke(lent, 256, target, pointer);
    pointer
}

/// Puts an operand at an address: a float, words akin to the accumulator's, a float at the limits
/// with another in the accumulator, or any words.
fn operand(numbers: &mut Numbers, lent: &mut Lent, target: u16, accumulator: usize) {
    let words = match numbers.below(8) {
        0 | 1 => float(numbers),
        2 | 3 => akin(numbers, registers(lent, accumulator)),
        4 | 5 => {
            let [first, second] = limits(numbers);
            set(lent, accumulator, &first);
            second
        }
        _ => [edge(numbers), edge(numbers), edge(numbers)],
    };
    for (distance, word) in (0..).zip(words) {
        poke(lent, 256, target.wrapping_add(distance), word);
    }
}

/// Writes a word of memory by the page registers of the state's group, whatever they protect.
fn poke(lent: &mut Lent, set: usize, address: u16, word: u16) {
    let register = set + usize::from(((lent.state[SW] & 0xF) << 4) | (address >> 12));
    if let Some(place) = lent.memory.get_mut(place(lent.pages[register], address)) {
        *place = word;
    }
}
