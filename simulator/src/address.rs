//! Derived addresses and operands of the addressing modes (4.3), and results in registers.

use crate::machine::{Fault, Machine};
use crate::state::sign_condition;

/// The two register fields of a first word, bits 8 to 11 and bits 12 to 15.
pub(crate) fn fields(word: u16) -> (usize, usize) {
    (usize::from((word >> 4) & 0xF), usize::from(word & 0xF))
}

/// The operand of the immediate short modes, 1 to 16 (4.3.7).
pub(crate) fn short(word: u16) -> u16 {
    (word & 0xF) + 1
}

/// Two words as one of 32 bits, the first the more significant.
pub(crate) fn joined(words: [u16; 2]) -> u32 {
    (u32::from(words[0]) << 16) | u32::from(words[1])
}

/// A word of 32 bits as two, the more significant first.
pub(crate) fn split(value: u32) -> [u16; 2] {
    [(value >> 16) as u16, value as u16]
}

impl Machine<'_> {
    /// A general register; register numbers wrap from 15 to 0 (4.4.1).
    pub(crate) fn register(&self, number: usize) -> u16 {
        self.state.r[number & 15]
    }

    /// Writes a general register and leaves CS alone.
    pub(crate) fn set_register(&mut self, number: usize, value: u16) {
        self.state.r[number & 15] = value;
    }

    /// Two registers as one of 32 bits.
    pub(crate) fn pair(&self, number: usize) -> u32 {
        joined([self.register(number), self.register(number + 1)])
    }

    /// Writes two registers and leaves CS alone.
    pub(crate) fn set_pair(&mut self, number: usize, value: u32) {
        let [upper, lower] = split(value);
        self.set_register(number, upper);
        self.set_register(number + 1, lower);
    }

    /// The contents of the index register, nothing for RX = 0.
    pub(crate) fn index(&self, word: u16) -> u16 {
        match word & 0xF {
            0 => 0,
            number => self.register(usize::from(number)),
        }
    }

    /// D, DX (4.3.2, 4.3.3) and IM, IMX (4.3.6): the second word plus the index.
    pub(crate) fn direct(&mut self, word: u16) -> Result<u16, Fault> {
        let second = self.fetch()?;
        Ok(second.wrapping_add(self.index(word)))
    }

    /// I, IX (4.3.4, 4.3.5): the word at the direct address.
    pub(crate) fn indirect(&mut self, word: u16) -> Result<u16, Fault> {
        let address = self.direct(word)?;
        self.read(address)
    }

    /// ICR (4.3.8): measured from the branch itself, whose successor IC holds already.
    pub(crate) fn relative(&self, word: u16) -> u16 {
        let displacement = i16::from(word as i8) as u16;
        self.state.ic.wrapping_sub(1).wrapping_add(displacement)
    }

    /// The single operand at the direct address.
    pub(crate) fn direct_word(&mut self, word: u16) -> Result<u16, Fault> {
        let address = self.direct(word)?;
        self.read(address)
    }

    /// The single operand at the indirect address.
    pub(crate) fn indirect_word(&mut self, word: u16) -> Result<u16, Fault> {
        let address = self.indirect(word)?;
        self.read(address)
    }

    /// The double operand at the direct address.
    pub(crate) fn direct_double(&mut self, word: u16) -> Result<u32, Fault> {
        let address = self.direct(word)?;
        self.read_words(address).map(joined)
    }

    /// Sets CS from a single result.
    pub(crate) fn single_condition(&mut self, value: u16) {
        self.state.set_condition(sign_condition(i64::from(value as i16)));
    }

    /// Sets CS from a double result.
    pub(crate) fn double_condition(&mut self, value: u32) {
        self.state.set_condition(sign_condition(i64::from(value as i32)));
    }

    /// Stores a single result in a register and sets CS from it.
    pub(crate) fn single_result(&mut self, number: usize, value: u16) {
        self.set_register(number, value);
        self.single_condition(value);
    }

    /// Stores a double result in two registers and sets CS from it.
    pub(crate) fn double_result(&mut self, number: usize, value: u32) {
        self.set_pair(number, value);
        self.double_condition(value);
    }
}
