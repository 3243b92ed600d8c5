//! The operands of a line: how each is spelt, and which bits hold it.

use super::digits::{decimal, word, write_decimal, write_word};
use Operand::*;

/// An operand of a box: a number in bits of the first word, or the second word.
#[derive(Clone, Copy, Debug, PartialEq, Eq)]
pub(crate) enum Operand {
    /// A register in bits 8 to 11.
    Ra,
    /// A register in bits 12 to 15.
    Rb,
    /// An index register in bits 12 to 15; 0 is none, and the operand is left out.
    Rx,
    /// A base register from R12 to R15, less 12 in bits 6 and 7.
    Br,
    /// A number from 0 to 15 in bits 8 to 11.
    UpperN,
    /// A number from 0 to 15 in bits 12 to 15.
    LowerN,
    /// A number from 1 to 16, less 1 in bits 8 to 11.
    UpperCount,
    /// A number from 1 to 16, less 1 in bits 12 to 15.
    LowerCount,
    /// A number from 0 to 255 in bits 8 to 15.
    Displacement,
    /// A number from -128 to 127 in bits 8 to 15.
    Label,
    /// The second word.
    Word,
}

impl Operand {
    /// The least and the largest number.
    pub(crate) fn limits(self) -> (i32, i32) {
        match self {
            Ra | Rb | UpperN | LowerN => (0, 15),
            Rx => (1, 15),
            Br => (12, 15),
            UpperCount | LowerCount => (1, 16),
            Displacement => (0, 255),
            Label => (-128, 127),
            Word => (0, 0xFFFF),
        }
    }

    /// Whether the operand is spelt as a register.
    pub(crate) fn is_register(self) -> bool {
        matches!(self, Ra | Rb | Rx | Br)
    }

    /// Writes the operand of these words.
    pub(crate) fn write(self, first: u16, second: u16, line: &mut Vec<u8>) {
        let (upper, lower) = ((first >> 4) & 0xF, first & 0xF);
        if self.is_register() {
            line.push(b'R');
        }
        match self {
            Ra | UpperN => write_decimal(upper, line),
            Rb | Rx | LowerN => write_decimal(lower, line),
            Br => write_decimal(((first >> 8) & 0x3) + 12, line),
            UpperCount => write_decimal(upper + 1, line),
            LowerCount => write_decimal(lower + 1, line),
            Displacement => write_decimal(first & 0xFF, line),
            Label => write_label(first as i8, line),
            Word => write_word(second, line),
        }
    }

    /// The number that a text says, nothing where the text has another form.
    pub(crate) fn number(self, text: &[u8]) -> Option<i32> {
        match self {
            Ra | Rb | Br => decimal(text.strip_prefix(b"R")?),
            Rx => decimal(text.strip_prefix(b"R")?).filter(|number| *number != 0),
            UpperN | LowerN | UpperCount | LowerCount | Displacement => decimal(text),
            Label => label(text),
            Word => word(text).map(i32::from),
        }
    }

    /// Whether a number is inside the field.
    pub(crate) fn holds(self, number: i32) -> bool {
        let (least, largest) = self.limits();
        (least..=largest).contains(&number)
    }

    /// The bits of a number that is inside: of the first word, for `Word` of the second.
    pub(crate) fn bits(self, number: i32) -> u16 {
        let number = number as u16;
        match self {
            Ra | UpperN => number << 4,
            Rb | Rx | LowerN => number,
            Br => (number - 12) << 8,
            UpperCount => (number - 1) << 4,
            LowerCount => number - 1,
            Displacement | Label => number & 0xFF,
            Word => number,
        }
    }
}

/// The number of a label: a minus sign where it is negative.
fn label(text: &[u8]) -> Option<i32> {
    match text.strip_prefix(b"-") {
        None => decimal(text),
        Some(digits) => decimal(digits).filter(|number| *number != 0).map(|number| -number),
    }
}

/// Writes a label.
fn write_label(number: i8, line: &mut Vec<u8>) {
    if number < 0 {
        line.push(b'-');
    }
    write_decimal(u16::from(number.unsigned_abs()), line);
}
