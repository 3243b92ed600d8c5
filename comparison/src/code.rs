//! Random instructions: mostly legal, their registers often aliased, their addresses at edges.

use crate::commands::{COMMANDS, ILLEGAL};
use crate::numbers::Numbers;
use crate::shapes::{shape, Shape};
use crate::words::{address, edge};

/// A first word and a second one, which is a part of the instruction if its shape has two.
pub fn instruction(numbers: &mut Numbers) -> [u16; 2] {
    let opcode = opcode(numbers);
    let Some(shape) = shape(opcode) else {
        return [(u16::from(opcode) << 8) | numbers.small(256), numbers.word()];
    };
    let low = match shape {
        Shape::Base => displacement(numbers),
        Shape::BaseIndexed => (numbers.small(16) << 4) | index(numbers),
        Shape::Immediate => (numbers.small(16) << 4) | immediate(numbers),
        Shape::Command | Shape::Direct | Shape::Indirect => {
            (numbers.small(16) << 4) | index(numbers)
        }
        Shape::Registers | Shape::Block => registers(numbers),
        Shape::Relative => relative(numbers),
        Shape::Special => numbers.pick(&[0x00, 0x00, 0xFF, 0xFF, 0x0F, 0xF0, 0x01, 0xFE]),
    };
    let second = match shape {
        Shape::Command => command(numbers),
        Shape::Immediate => edge(numbers),
        _ => address(numbers),
    };
    [(u16::from(opcode) << 8) | low, second]
}

/// An opcode: the shared ones often, each other legal one alike, at times any.
fn opcode(numbers: &mut Numbers) -> u8 {
    match numbers.below(16) {
        0 => numbers.below(0x40) as u8,
        1 => 0x40 + numbers.below(4) as u8,
        2 => 0x48,
        3 => 0x4A,
        4 if numbers.once_in(4) => numbers.below(0x100) as u8,
        _ => loop {
            let opcode = (0x50 + numbers.below(0xB0)) as u8;
            if shape(opcode).is_some() {
                return opcode;
            }
        },
    }
}

/// The displacement of a base relative instruction.
fn displacement(numbers: &mut Numbers) -> u16 {
    let any = numbers.small(256);
    numbers.pick(&[0, 1, 0xFF, any, any, any])
}

/// An index register, often none.
fn index(numbers: &mut Numbers) -> u16 {
    if numbers.once_in(2) {
        0
    } else {
        numbers.small(16)
    }
}

/// The operation of an immediate instruction, at times an illegal one.
fn immediate(numbers: &mut Numbers) -> u16 {
    if numbers.once_in(32) {
        numbers.small(16)
    } else {
        1 + numbers.small(11)
    }
}

/// Two register fields, often the same, neighbours, or at the end of the registers.
fn registers(numbers: &mut Numbers) -> u16 {
    let a = numbers.small(16);
    let a = numbers.pick(&[a, a, a, 14, 15, 0]);
    let b = numbers.small(16);
    let b = numbers.pick(&[b, b, b, b, a, a + 1, a + 2, a + 15, 15, 0]) & 15;
    (a << 4) | b
}

/// A displacement from IC: short, seldom a branch to itself.
fn relative(numbers: &mut Numbers) -> u16 {
    let any = numbers.small(256);
    let short = numbers.pick(&[2, 3, 4, 5, 7, 9, 0xFC, 0xF0]);
    numbers.pick(&[short, short, short, any])
}

/// A command of XIO, at times an illegal one.
fn command(numbers: &mut Numbers) -> u16 {
    if numbers.once_in(16) {
        return numbers.pick(&ILLEGAL);
    }
    let (_, first, last) = numbers.pick(&COMMANDS);
    first + numbers.small(last - first + 1)
}
