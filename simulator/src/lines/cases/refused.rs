//! Lines that are refused: every mnemonic with each operand just outside its field and with
//! operands too few or too many; for every list of operands each operand in many other forms, and
//! decimals of hundreds of digits.

use super::{line, replaced, shapes, spelt, usual, Requests};
use crate::lines::operand::Operand::{self, Label, Rx};
use crate::lines::table::{Instruction, TABLE};

/// Texts that are no operand, or one of another kind.
const TEXTS: &[&str] = &[
    "", " ", "R", "r3", "RR3", "R03", "R00", "R-1", "R+1", "R3 ", " R3", "R3R", "R 3", "R3x",
    "R3.", "RA", "R1F", "x", "03", "00", "000", "0", "1", "R0", "R1", "-1", "-0", "-01", "--1",
    "+1", "-", "3 ", " 3", "3-", "-R3", "1.0", "1e1", "0x3", "3h", "#3", "100", "01000", "0100",
    "00ab", "00AG", "01 0", "R100", "$100", "FFFF", "10000", "-100", "LT", "SMK", "(R3)", "R3;",
    "\t3", "3\t", "3\r", "3\0", "\u{b3}", "/", ":", "@", "G",
];

/// Decimals that are inside once some of their bits are lost: 3, 13 or 1 and a power of two.
const WRAPPED: &[&str] = &[
    "19",
    "259",
    "269",
    "65539",
    "65549",
    "4294967299",
    "4294967309",
    "18446744073709551617",
    "18446744073709551619",
    "18446744073709551629",
    "340282366920938463463374607431768211459",
    "340282366920938463463374607431768211469",
];

/// Each operand one below its least and one above its largest number, then all far outside.
fn outside(instruction: &Instruction, requests: &mut Requests) {
    for (index, operand) in instruction.operands.iter().enumerate() {
        let (least, largest) = operand.limits();
        for number in [least - 1, largest + 1] {
            let texts = replaced(instruction, index, &spelt(*operand, number));
            requests.read(line(instruction.name, &texts));
        }
    }
    requests.read(line(instruction.name, &far(instruction)));
}

/// The operands of an instruction, all outside but the word, whose form has no number outside.
fn far(instruction: &Instruction) -> Vec<String> {
    instruction.operands.iter().map(|operand| spelt(*operand, 999)).collect()
}

/// Operands too few or too many, and blanks where none belong.
fn counts(instruction: &Instruction, requests: &mut Requests) {
    let name = instruction.name;
    let texts = usual(instruction);
    let whole = line(name, &texts);
    requests.read(name);
    requests.read(format!("{name} "));
    requests.read(format!("{name},{}", texts.join(",")));
    requests.read(format!("{whole} "));
    requests.read(format!("{whole},R3"));
    if !texts.is_empty() {
        requests.read(format!("{name}  {}", texts.join(",")));
        requests.read(format!("{name}{}", texts.join(",")));
        requests.read(line(name, &texts[1..]));
    }
    if texts.len() > 1 {
        requests.read(line(name, &texts[..1]));
        let reversed: Vec<String> = texts.into_iter().rev().collect();
        requests.read(line(name, &reversed));
    }
    if instruction.operands.ends_with(&[Rx]) {
        let index = instruction.operands.len() - 1;
        requests.read(line(name, &replaced(instruction, index, "R0")));
    }
}

/// Each operand in other forms, alone and beside operands that are outside.
fn forms(instruction: &Instruction, requests: &mut Requests) {
    let name = instruction.name;
    for index in 0..instruction.operands.len() {
        for text in TEXTS {
            requests.read(line(name, &replaced(instruction, index, text)));
        }
        for text in ["x", "R00", "-0", "01000"] {
            let mut texts = far(instruction);
            texts[index] = text.to_string();
            requests.read(line(name, &texts));
        }
    }
    let joined = usual(instruction).join(",");
    for text in [",", ",,", " ,", ", ", "R3;R3"] {
        requests.read(format!("{name} {text}"));
    }
    requests.read(format!("{name} ,{joined}"));
    requests.read(format!("{name} {joined},"));
    requests.read(format!("{name} {joined},,"));
    requests.read(format!("{name} {}", joined.replace(',', ", ")));
    requests.read(format!("{name} {}", joined.replace(',', " ")));
}

/// Decimals of hundreds of digits: two that have the form of a number, three that do not.
fn long() -> [String; 5] {
    let ones = "1".repeat(300);
    [
        ones.clone(),
        format!("1{}3", "0".repeat(400)),
        format!("0{ones}"),
        format!("{}3", "0".repeat(200)),
        format!("{ones}x"),
    ]
}

/// Large decimals for one operand of an instruction, also of hundreds of digits.
fn large(instruction: &Instruction, index: usize, also: bool, requests: &mut Requests) {
    let operand = instruction.operands[index];
    let signs: &[&str] = match operand {
        Label => &["", "-"],
        _ if operand.is_register() => &["R"],
        _ => &[""],
    };
    for sign in signs {
        let long = if also { long().to_vec() } else { Vec::new() };
        for digits in WRAPPED.iter().copied().chain(long.iter().map(String::as_str)) {
            let texts = replaced(instruction, index, &format!("{sign}{digits}"));
            requests.read(line(instruction.name, &texts));
        }
    }
}

/// All of them.
pub(super) fn requests(requests: &mut Requests) {
    for instruction in &TABLE {
        outside(instruction, requests);
        counts(instruction, requests);
    }
    let mut seen: Vec<Operand> = Vec::new();
    for instruction in shapes() {
        forms(instruction, requests);
        for (index, operand) in instruction.operands.iter().enumerate() {
            let new = !seen.contains(operand);
            large(instruction, index, new, requests);
            seen.push(*operand);
        }
    }
}
