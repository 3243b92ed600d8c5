//! The random lines: each of its own seed, of one of several kinds.

use super::damage::damage;
use super::operands::{long_decimal, respelt};
use crate::numbers::Numbers;
use simulator::lines::write;

/// How a line is made.
#[derive(Clone, Copy, Debug, PartialEq, Eq, PartialOrd, Ord)]
pub enum Kind {
    /// The line of random words.
    Printed,
    /// One with other operands: numbers at the limits, other spellings, more or fewer.
    Respelt,
    /// One with a long decimal, or one that is inside once some of its bits are lost.
    Long,
    /// One with damaged bytes.
    Damaged,
    /// Random bytes.
    Bytes,
}

impl Kind {
    /// The kind in print.
    pub fn name(self) -> &'static str {
        match self {
            Kind::Printed => "lines of random words",
            Kind::Respelt => "with other operands",
            Kind::Long => "with a large decimal",
            Kind::Damaged => "with damaged bytes",
            Kind::Bytes => "random bytes",
        }
    }
}

/// The bytes of most lines, those with a meaning more often.
pub const ALPHABET: &[u8] =
    b"0123456789ABCDEFGHIJKLMNOPQRSTUVWXYZ0123456789RRRRRRRR    ,,,,,,----++abcfrx\t\n\r\0\x80\xB3";

/// The line of a number in the series of a seed.
pub fn line(seed: u64, number: u64) -> (Kind, Vec<u8>) {
    let mut numbers = Numbers::new(Numbers::new(seed).next() ^ number);
    numbers = Numbers::new(numbers.next());
    let mut text = printed(&mut numbers);
    let kind = match numbers.below(16) {
        0..=2 => Kind::Printed,
        3..=8 => Kind::Respelt,
        9 => Kind::Long,
        10..=14 => Kind::Damaged,
        _ => Kind::Bytes,
    };
    match kind {
        Kind::Printed => {}
        Kind::Respelt => respelt(&mut numbers, &mut text),
        Kind::Long => long_decimal(&mut numbers, &mut text),
        Kind::Damaged => damage(&mut numbers, &mut text),
        Kind::Bytes => bytes(&mut numbers, &mut text),
    }
    (kind, text)
}

/// The line of random words, each group of mnemonics about as often as it has mnemonics.
fn printed(numbers: &mut Numbers) -> Vec<u8> {
    let mut text = Vec::new();
    loop {
        let first = match numbers.below(64) {
            0..=3 => numbers.word() & 0x3FFF,
            4..=7 => 0x4000 | numbers.small(0x0400),
            8..=9 => 0x4A00 | numbers.small(0x0100),
            10 => numbers.pick(&[0xFF00, 0xFFFF]),
            _ => 0x4800 + numbers.small(0xB700),
        };
        if write(first, numbers.word(), &mut text) {
            return text;
        }
    }
}

/// Random bytes: of any value or of the alphabet, alone or behind a mnemonic.
fn bytes(numbers: &mut Numbers, text: &mut Vec<u8>) {
    let name = text.split(|byte| *byte == b' ').next().unwrap_or_default().len();
    text.truncate(numbers.pick(&[0, 0, name, name + 1]));
    let length = numbers.pick(&[0, 1, 2, 4, 8, 12, 20, 40, 300]);
    for _ in 0..numbers.below(length + 1) {
        let any = numbers.word() as u8;
        text.push(if length == 40 { any } else { numbers.pick(ALPHABET) });
    }
}
