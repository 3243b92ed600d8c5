//! Every mnemonic with the least and the largest number of each operand, with and without an index,
//! read and printed.

use super::{line, replaced, shapes, spelt, usual, Requests};
use crate::lines::operand::Operand::{Rx, Word};
use crate::lines::read::{read, Words};
use crate::lines::table::{Instruction, TABLE};

/// Numbers inside a field besides its limits, for operands that are longer than a digit.
const INSIDE: &[i32] = &[
    -127, -101, -100, -99, -90, -11, -10, -9, -1, 0, 1, 2, 8, 9, 10, 11, 12, 13, 14, 15, 16, 19,
    20, 90, 99, 100, 101, 109, 110, 126, 128, 199, 200, 249, 250, 254, 255, 0x09AF, 0x0FF0, 0xA0B1,
    0xCDEF,
];

/// A line to read, and the words that it stands for to print, with another second word too.
fn both(line: &str, requests: &mut Requests) {
    requests.read(line);
    match read(line.as_bytes()) {
        Ok(Words::One(first)) => requests.words(first, 0x5A5A),
        Ok(Words::Two(first, second)) => {
            requests.words(first, second);
            requests.words(first, !second);
        }
        Err(refusal) => panic!("{line}: {refusal}"),
    }
}

/// The lines of an instruction at the limits of its operands.
fn limits(instruction: &Instruction, requests: &mut Requests) {
    let name = instruction.name;
    let texts = usual(instruction);
    both(&line(name, &texts), requests);
    if instruction.operands.ends_with(&[Rx]) {
        both(&line(name, &texts[..texts.len() - 1]), requests);
    }
    for (index, operand) in instruction.operands.iter().enumerate() {
        let (least, largest) = operand.limits();
        for number in [least, largest] {
            both(&line(name, &replaced(instruction, index, &spelt(*operand, number))), requests);
        }
    }
    let ends: [fn((i32, i32)) -> i32; 2] = [|(least, _)| least, |(_, largest)| largest];
    for end in ends {
        let texts: Vec<String> = instruction
            .operands
            .iter()
            .map(|operand| spelt(*operand, end(operand.limits())))
            .collect();
        requests.read(line(name, &texts));
    }
}

/// More numbers for each operand of an instruction.
fn inside(instruction: &Instruction, requests: &mut Requests) {
    for (index, operand) in instruction.operands.iter().enumerate() {
        for number in INSIDE.iter().copied().filter(|number| operand.holds(*number)) {
            let texts = replaced(instruction, index, &spelt(*operand, number));
            both(&line(instruction.name, &texts), requests);
        }
        if *operand == Word {
            // All digits in all places.
            for digit in 0..16 {
                let texts = replaced(instruction, index, &format!("{:04X}", 0x1111 * digit));
                requests.read(line(instruction.name, &texts));
            }
        }
    }
}

/// All of them: every mnemonic at its limits, and more numbers for every list of operands.
pub(super) fn requests(requests: &mut Requests) {
    for instruction in &TABLE {
        limits(instruction, requests);
    }
    for instruction in shapes() {
        inside(instruction, requests);
    }
}
