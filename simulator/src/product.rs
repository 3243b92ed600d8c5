//! Multiply instructions, opcodes C0 to CF.

use crate::address::{fields, short};
use crate::fixed::{double_product, long_product, short_product};
use crate::float::{self, EXTENDED, SINGLE};
use crate::machine::{Done, Fault, Machine};

impl Machine<'_> {
    /// Opcodes C0 to CF.
    pub(crate) fn products(&mut self, word: u16) -> Done {
        let (a, b) = fields(word);
        match word >> 8 {
            0xC0 => {
                let operand = self.direct_word(word)?;
                self.multiply_short(a, operand); // 5.71 MS
            }
            0xC1 => self.multiply_short(a, self.register(b)), // 5.71 MSR
            0xC2 => self.multiply_short(a, short(word)),      // 5.71 MISP
            0xC3 => self.multiply_short(a, short(word).wrapping_neg()), // 5.71 MISN
            0xC4 => {
                let operand = self.direct_word(word)?;
                self.multiply_long(a, operand); // 5.72 M
            }
            0xC5 => self.multiply_long(a, self.register(b)), // 5.72 MR
            0xC6 => {
                let operand = self.direct_double(word)?;
                self.multiply_double(a, operand); // 5.73 DM
            }
            0xC7 => self.multiply_double(a, self.pair(b)), // 5.73 DMR
            0xC8 => return self.float_direct(word, SINGLE, float::product), // 5.74 FM
            0xC9 => self.float_registers(word, SINGLE, float::product), // 5.74 FMR
            0xCA => return self.float_direct(word, EXTENDED, float::product), // 5.75 EFM
            0xCB => self.float_registers(word, EXTENDED, float::product), // 5.75 EFMR
            _ => return Err(Fault::ILLEGAL),
        }
        Ok(())
    }

    /// 5.71: the lower word of the product in RA.
    pub(crate) fn multiply_short(&mut self, a: usize, operand: u16) {
        let (value, overflow) = short_product(self.register(a), operand);
        self.note_overflow(overflow);
        self.single_result(a, value);
    }

    /// 5.72: the whole product in RA and RA+1.
    pub(crate) fn multiply_long(&mut self, a: usize, operand: u16) {
        self.double_result(a, long_product(self.register(a), operand));
    }

    /// 5.73: the lower double word of the product in RA and RA+1.
    fn multiply_double(&mut self, a: usize, operand: u32) {
        let (value, overflow) = double_product(self.pair(a), operand);
        self.note_overflow(overflow);
        self.double_result(a, value);
    }
}
