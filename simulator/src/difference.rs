//! Subtract and negate instructions, opcodes B0 to BF.

use crate::address::{fields, short};
use crate::fixed::{double_difference, single_difference};
use crate::float::{self, EXTENDED, SINGLE};
use crate::machine::{Done, Fault, Machine};

impl Machine<'_> {
    /// Opcodes B0 to BF.
    pub(crate) fn differences(&mut self, word: u16) -> Done {
        let (a, b) = fields(word);
        match word >> 8 {
            0xB0 => {
                let operand = self.direct_word(word)?;
                self.subtract(a, operand); // 5.63 S
            }
            0xB1 => self.subtract(a, self.register(b)), // 5.63 SR
            0xB2 => self.subtract(a, short(word)),      // 5.63 SISP
            0xB3 => return self.decrement(word),        // 5.64 DECM
            0xB4 => self.negate(a, b),                  // 5.65 NEG
            0xB5 => self.double_negate(a, b),           // 5.66 DNEG
            0xB6 => {
                let operand = self.direct_double(word)?;
                self.double_subtract(a, operand); // 5.67 DS
            }
            0xB7 => self.double_subtract(a, self.pair(b)), // 5.67 DSR
            0xB8 => return self.float_direct(word, SINGLE, float::difference), // 5.68 FS
            0xB9 => self.float_registers(word, SINGLE, float::difference), // 5.68 FSR
            0xBA => return self.float_direct(word, EXTENDED, float::difference), // 5.69 EFS
            0xBB => self.float_registers(word, EXTENDED, float::difference), // 5.69 EFSR
            0xBC => self.float_of_register(word, float::negated), // 5.70 FNEG
            _ => return Err(Fault::ILLEGAL),
        }
        Ok(())
    }

    /// 5.63: RA less the operand.
    pub(crate) fn subtract(&mut self, a: usize, operand: u16) {
        self.single_total(a, single_difference(self.register(a), operand));
    }

    /// 5.67: RA and RA+1 less the operand.
    fn double_subtract(&mut self, a: usize, operand: u32) {
        self.double_total(a, double_difference(self.pair(a), operand));
    }

    /// 5.64 DECM: a read and a write.
    fn decrement(&mut self, word: u16) -> Done {
        let n = fields(word).0 as u16 + 1;
        let address = self.direct(word)?;
        let old = self.modify(address, |old| old.wrapping_sub(n))?;
        self.total_status(single_difference(old, n));
        Ok(())
    }

    /// 5.65 NEG: 8000 stays and overflows; no carry.
    fn negate(&mut self, a: usize, b: usize) {
        let operand = self.register(b);
        self.note_overflow(operand == 0x8000);
        self.single_result(a, operand.wrapping_neg());
    }

    /// 5.66 DNEG: 8000 0000 stays and overflows; no carry.
    fn double_negate(&mut self, a: usize, b: usize) {
        let operand = self.pair(b);
        self.note_overflow(operand == 0x8000_0000);
        self.double_result(a, operand.wrapping_neg());
    }
}
