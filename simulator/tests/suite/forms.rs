//! The forms of instructions, and the words of memory that each touches (section 5).

use crate::opcodes::{indexable, length};
use std::collections::BTreeSet;

/// An opcode, the operation beside it (of 40 to 43, 4A and FF), and whether there is an index.
#[derive(Clone, Copy, Debug, PartialEq, Eq, PartialOrd, Ord)]
pub struct Form {
    pub opcode: u16,
    pub operation: u16,
    pub indexed: bool,
}

/// The form of a first word, nothing for an illegal one.
pub fn form(first: u16) -> Option<Form> {
    if length(first) == 0 {
        return None;
    }
    let opcode = first >> 8;
    let operation = match opcode {
        0x40..=0x43 => (first >> 4) & 0xF,
        0x4A | 0xFF => first & 0xF,
        _ => 0,
    };
    let with_index = indexable(opcode) || matches!(opcode, 0x40..=0x43);
    Some(Form { opcode, operation, indexed: with_index && first & 0xF != 0 })
}

/// Every form.
pub fn forms() -> BTreeSet<Form> {
    (0..=0xFFFF).filter_map(form).collect()
}

/// Operand words of the base relative groups, four opcodes each.
const BASE: [u16; 16] = [1, 2, 1, 2, 1, 1, 1, 1, 2, 2, 2, 2, 1, 1, 1, 2];
/// Operand words of the base relative indexed operations.
const BASE_INDEXED: [u16; 16] = [1, 2, 1, 2, 1, 1, 1, 1, 2, 2, 2, 2, 1, 2, 1, 1];
/// Opcodes of the indirect modes.
const INDIRECT: [u16; 14] =
    [0x52, 0x55, 0x58, 0x71, 0x7C, 0x84, 0x88, 0x8D, 0x8E, 0x92, 0x94, 0x98, 0x9D, 0x9E];

impl Form {
    /// How many words of memory an operand has at its derived address; LM and STM have one more
    /// than their first field says, and POPM, PSHM and MOV find theirs by registers.
    pub fn words(self) -> u16 {
        match self.opcode {
            0x00..=0x3F => BASE[usize::from(self.opcode / 4)],
            0x40..=0x43 => BASE_INDEXED[usize::from(self.operation)],
            0x86 | 0x88 | 0x96 | 0x98 | 0xA6 | 0xA8 | 0xB6 | 0xB8 | 0xC6 | 0xC8 => 2,
            0xD6 | 0xD8 | 0xF4 | 0xF6 | 0xF8 => 2,
            0x7C | 0x7D | 0x8A | 0x9A | 0xAA | 0xBA | 0xCA | 0xDA | 0xFA => 3,
            0x48 | 0x4A | 0x70..=0x73 | 0x85 => 0,
            0x7F => 1,
            opcode if indexable(opcode) => 1,
            _ => 0,
        }
    }

    /// Whether the first word is of a block of registers: LM, POPM, STM, PSHM.
    pub fn block(self) -> bool {
        matches!(self.opcode, 0x89 | 0x8F | 0x99 | 0x9F)
    }

    /// Whether memory is touched at all.
    pub fn touches(self) -> bool {
        self.words() > 0 || self.block() || self.opcode == 0x93
    }

    /// Whether a word of memory names the operand.
    pub fn indirect(self) -> bool {
        INDIRECT.contains(&self.opcode)
    }

    /// Whether the instruction needs key 0: XIO, LST, LSTI.
    pub fn privileged(self) -> bool {
        matches!(self.opcode, 0x48 | 0x7C | 0x7D)
    }

    /// Whether its operand is read, and whether it is written.
    pub fn manner(self) -> [bool; 2] {
        match self.opcode {
            0x08..=0x0F => [false, true],
            0x40..=0x43 => [!matches!(self.operation, 2 | 3), matches!(self.operation, 2 | 3)],
            0x50 | 0x52 | 0x53 | 0x55 | 0x59 | 0x97 | 0x9B..=0x9E | 0xA3 | 0xB3 => [true, true],
            0x7E | 0x90..=0x92 | 0x94 | 0x96 | 0x98..=0x9A | 0x9F => [false, true],
            _ => [true, false],
        }
    }

    /// The same operation whatever its base register and index.
    pub fn plain(self) -> Form {
        let opcode = match self.opcode {
            0x00..=0x3F => self.opcode & 0x3C,
            0x40..=0x43 => 0x40,
            opcode => opcode,
        };
        Form { opcode, indexed: false, ..self }
    }
}
