//! The instruction of a first word, and the instruction of a mnemonic.

use super::table::{Instruction, MNEMONICS, TABLE};

/// The number of no instruction.
const NO: u8 = 0xFF;

/// For first words one `step` after another, from one on, the numbers of their instructions.
const fn numbers<const COUNT: usize>(from: u16, step: u16) -> [u8; COUNT] {
    let mut numbers = [NO; COUNT];
    let mut index = 0;
    while index < COUNT {
        let first = from + step * index as u16;
        let mut number = 0;
        while number < MNEMONICS {
            if first & TABLE[number].mask == TABLE[number].code {
                numbers[index] = number as u8;
            }
            number += 1;
        }
        index += 1;
    }
    numbers
}

/// The instructions by their opcode, and those that have an extension by it.
static OPCODES: [u8; 256] = numbers(0, 0x0100);
static BASE_INDEXED: [u8; 16] = numbers(0x4000, 0x0010);
static IMMEDIATE: [u8; 16] = numbers(0x4A00, 0x0001);
static WHOLE: [u8; 256] = numbers(0xFF00, 0x0001);

/// The instruction that a first word begins, if it begins one.
pub(crate) fn of_word(first: u16) -> Option<&'static Instruction> {
    let number = match first >> 8 {
        0x40..=0x43 => BASE_INDEXED[usize::from((first >> 4) & 0xF)],
        0x4A => IMMEDIATE[usize::from(first & 0xF)],
        0xFF => WHOLE[usize::from(first & 0xFF)],
        opcode => OPCODES[usize::from(opcode)],
    };
    TABLE.get(usize::from(number))
}

/// The longest mnemonic.
const LONGEST: usize = 4;

/// A mnemonic as one number, filled up with blanks, which no mnemonic contains.
const fn key(name: &[u8]) -> u32 {
    let mut bytes = [b' '; LONGEST];
    let mut index = 0;
    while index < name.len() {
        bytes[index] = name[index];
        index += 1;
    }
    u32::from_be_bytes(bytes)
}

/// Slots of the mnemonics, more than twice as many; a full one is followed by the next.
const SLOTS: usize = 512;

/// The slot where the search for a mnemonic starts.
const fn slot(key: u32) -> usize {
    key.wrapping_mul(0x9E37_79B1) as usize >> 23
}

/// The mnemonics in their slots, each with the number of its instruction.
const fn slots() -> [(u32, u8); SLOTS] {
    let mut slots = [(0, NO); SLOTS];
    let mut number = 0;
    while number < MNEMONICS {
        let key = key(TABLE[number].name.as_bytes());
        let mut place = slot(key);
        while slots[place].1 != NO {
            place = (place + 1) % SLOTS;
        }
        slots[place] = (key, number as u8);
        number += 1;
    }
    slots
}

static NAMES: [(u32, u8); SLOTS] = slots();

/// The instruction of a mnemonic without a blank in it, if there is one.
pub(crate) fn of_name(name: &[u8]) -> Option<&'static Instruction> {
    if name.len() > LONGEST {
        return None;
    }
    let key = key(name);
    let mut place = slot(key);
    while NAMES[place].1 != NO && NAMES[place].0 != key {
        place = (place + 1) % SLOTS;
    }
    TABLE.get(usize::from(NAMES[place].1))
}
