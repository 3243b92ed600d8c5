//! Other operands for a line: numbers at and past the limits, other spellings, more or fewer of them, large decimals.

use crate::numbers::Numbers;

/// Numbers at and beside the limits of the fields.
const LIMITS: [u32; 32] = [
    0, 1, 2, 3, 9, 10, 11, 12, 13, 14, 15, 16, 17, 18, 31, 32, 99, 100, 126, 127, 128, 129, 130,
    254, 255, 256, 257, 999, 1000, 1001, 65535, 65536,
];

/// The mnemonic of a line, and its operands.
fn parts(text: &[u8]) -> (Vec<u8>, Vec<Vec<u8>>) {
    match text.iter().position(|byte| *byte == b' ') {
        None => (text.to_vec(), Vec::new()),
        Some(blank) => {
            let operands = text[blank + 1..].split(|byte| *byte == b',').map(<[u8]>::to_vec);
            (text[..blank].to_vec(), operands.collect())
        }
    }
}

/// The line of a mnemonic and operands.
fn joined(name: Vec<u8>, operands: &[Vec<u8>]) -> Vec<u8> {
    let mut text = name;
    for (index, operand) in operands.iter().enumerate() {
        text.push(if index == 0 { b' ' } else { b',' });
        text.extend_from_slice(operand);
    }
    text
}

/// Spells one operand or several in another way, or changes how many there are.
pub fn respelt(numbers: &mut Numbers, text: &mut Vec<u8>) {
    let (name, mut operands) = parts(text);
    for _ in 0..numbers.pick(&[1, 1, 1, 2, 3]) {
        let places = operands.len() as u32;
        match numbers.below(12) {
            0 => operands.push(index(numbers)),
            1 if places > 0 => drop(operands.pop()),
            2 if places > 1 => operands.swap(0, 1),
            _ if places > 0 => {
                let place = numbers.below(places) as usize;
                operands[place] = operand(numbers, &operands[place]);
            }
            _ => {}
        }
    }
    *text = joined(name, &operands);
}

/// A register as an index, R0 often.
fn index(numbers: &mut Numbers) -> Vec<u8> {
    let number = numbers.pick(&[0, 0, 0, 1, 2, 10, 15, 16]);
    format!("R{number}").into_bytes()
}

/// Another operand in place of one: mostly of the same kind, with another number.
fn operand(numbers: &mut Numbers, old: &[u8]) -> Vec<u8> {
    if numbers.once_in(10) {
        let texts = ["", "R", "-", "x", "LT", "SMK", "-0", "00", "R00", "R-1", "+1", "0x3", "1 "];
        return numbers.pick(&texts).into();
    }
    let number = numbers.pick(&LIMITS);
    let word = numbers.word();
    let zero = if numbers.once_in(16) { "0" } else { "" };
    let sign = if numbers.once_in(3) { "-" } else { "" };
    let text = match old {
        [b'R', ..] => format!("R{zero}{number}"),
        [b'-', ..] => format!("-{zero}{number}"),
        [_, _, _, _] => match numbers.below(4) {
            0 => format!("{word:X}"),
            1 => format!("{word:04x}"),
            2 => format!("{word:05X}"),
            _ => format!("{word:04X}"),
        },
        _ => format!("{sign}{zero}{number}"),
    };
    text.into_bytes()
}

/// Gives one operand a large decimal.
pub fn long_decimal(numbers: &mut Numbers, text: &mut Vec<u8>) {
    let (name, mut operands) = parts(text);
    if operands.is_empty() {
        operands.push(Vec::new());
    }
    let place = numbers.below(operands.len() as u32) as usize;
    let prefix = match operands[place].first() {
        Some(b'R') => "R",
        Some(b'-') => "-",
        _ => numbers.pick(&["", "", "", "-"]),
    };
    operands[place] = prefix.into();
    operands[place].extend(large(numbers));
    *text = joined(name, &operands);
}

/// A decimal that is inside once the bits from some place on are lost, or one of many digits.
fn large(numbers: &mut Numbers) -> Vec<u8> {
    let inside = numbers.pick(&[1, 2, 3, 12, 13, 15, 16]);
    match numbers.below(8) {
        // 2 to the power of 128 ends in 456.
        0 => format!("340282366920938463463374607431768211{}", 456 + inside).into_bytes(),
        1..=4 => {
            let lost = numbers.pick(&[8, 10, 16, 31, 32, 33, 63, 64, 65]);
            let times = u128::from(1 + numbers.below(9));
            format!("{}", (times << lost) + inside as u128).into_bytes()
        }
        _ => {
            let length = match numbers.below(256) {
                0 => 100_000,
                1..=16 => 3_000,
                _ => 50,
            };
            let mut digits = vec![numbers.pick(b"1111234567890")];
            digits.extend((0..numbers.below(length)).map(|_| numbers.pick(b"0123456789")));
            digits
        }
    }
}
