//! The list of requests that the program `lines` is run on, here and in another implementation.

mod known;
mod malformed;
mod names;
mod operands;
mod random;
mod refused;
mod words;

use super::operand::Operand;
use super::table::{Instruction, TABLE};

/// The requests being written: lines of bytes.
pub(crate) struct Requests(Vec<u8>);

impl Requests {
    /// One line of the input.
    fn line(&mut self, line: &[u8]) {
        self.0.extend_from_slice(line);
        self.0.push(b'\n');
    }

    /// Two words to print.
    fn words(&mut self, first: u16, second: u16) {
        self.line(format!("W {first:04X} {second:04X}").as_bytes());
    }

    /// A line to read.
    fn read(&mut self, line: impl AsRef<[u8]>) {
        self.line(&[b"L ", line.as_ref()].concat());
    }
}

/// An operand's number as it is spelt.
fn spelt(operand: Operand, number: i32) -> String {
    match operand {
        Operand::Word => format!("{number:04X}"),
        _ if operand.is_register() => format!("R{number}"),
        _ => format!("{number}"),
    }
}

/// The operands of an instruction, each with a number inside its field.
fn usual(instruction: &Instruction) -> Vec<String> {
    let number = |operand: &Operand| match operand {
        Operand::Br => 13,
        Operand::Word => 0x12AF,
        Operand::Label => -7,
        _ => 3,
    };
    instruction.operands.iter().map(|operand| spelt(*operand, number(operand))).collect()
}

/// A line of a mnemonic and the texts of its operands.
fn line(name: &str, texts: &[String]) -> String {
    if texts.is_empty() {
        name.to_string()
    } else {
        format!("{name} {}", texts.join(","))
    }
}

/// The usual operands with one of them replaced.
fn replaced(instruction: &Instruction, index: usize, text: &str) -> Vec<String> {
    let mut texts = usual(instruction);
    texts[index] = text.to_string();
    texts
}

/// One instruction for each list of operands that a box has.
fn shapes() -> Vec<&'static Instruction> {
    let mut shapes: Vec<&Instruction> = Vec::new();
    for instruction in &TABLE {
        if shapes.iter().all(|shape| shape.operands != instruction.operands) {
            shapes.push(instruction);
        }
    }
    shapes
}

/// The whole input; its last line has no newline.
pub fn requests() -> Vec<u8> {
    let mut requests = Requests(Vec::new());
    known::requests(&mut requests);
    operands::requests(&mut requests);
    words::requests(&mut requests);
    refused::requests(&mut requests);
    names::requests(&mut requests);
    malformed::requests(&mut requests);
    random::requests(&mut requests);
    requests.read("LISP R3,16");
    requests.0.pop();
    requests.0
}
