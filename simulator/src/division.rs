//! Divide instructions, opcodes D0 to DF.

use crate::address::{fields, short};
use crate::fixed::{double_quotient, long_quotient, short_quotient, Divided};
use crate::float::{self, EXTENDED, SINGLE};
use crate::machine::{Done, Fault, Machine};

impl Machine<'_> {
    /// Opcodes D0 to DF.
    pub(crate) fn divisions(&mut self, word: u16) -> Done {
        let (a, b) = fields(word);
        match word >> 8 {
            0xD0 => {
                let operand = self.direct_word(word)?;
                self.divide_short(a, operand); // 5.76 DV
            }
            0xD1 => self.divide_short(a, self.register(b)), // 5.76 DVR
            0xD2 => self.divide_short(a, short(word)),      // 5.76 DISP
            0xD3 => self.divide_short(a, short(word).wrapping_neg()), // 5.76 DISN
            0xD4 => {
                let operand = self.direct_word(word)?;
                self.divide_long(a, operand); // 5.77 D
            }
            0xD5 => self.divide_long(a, self.register(b)), // 5.77 DR
            0xD6 => {
                let operand = self.direct_double(word)?;
                self.divide_double(a, operand); // 5.78 DD
            }
            0xD7 => self.divide_double(a, self.pair(b)), // 5.78 DDR
            0xD8 => return self.float_direct(word, SINGLE, float::quotient), // 5.79 FD
            0xD9 => self.float_registers(word, SINGLE, float::quotient), // 5.79 FDR
            0xDA => return self.float_direct(word, EXTENDED, float::quotient), // 5.80 EFD
            0xDB => self.float_registers(word, EXTENDED, float::quotient), // 5.80 EFDR
            _ => return Err(Fault::ILLEGAL),
        }
        Ok(())
    }

    /// 5.76: RA by the operand; quotient to RA, remainder to RA+1.
    pub(crate) fn divide_short(&mut self, a: usize, operand: u16) {
        self.divided(a, short_quotient(self.register(a), operand));
    }

    /// 5.77: RA and RA+1 by the operand; quotient to RA, remainder to RA+1.
    pub(crate) fn divide_long(&mut self, a: usize, operand: u16) {
        self.divided(a, long_quotient(self.pair(a), operand));
    }

    /// Stores quotient and remainder; CS from the quotient.
    fn divided(&mut self, a: usize, result: Divided) {
        self.note_overflow(result.overflow);
        self.set_register(a + 1, result.remainder);
        self.single_result(a, result.quotient);
    }

    /// 5.78: RA and RA+1 by the operand; the remainder is lost.
    fn divide_double(&mut self, a: usize, operand: u32) {
        let (value, overflow) = double_quotient(self.pair(a), operand);
        self.note_overflow(overflow);
        self.double_result(a, value);
    }
}
