//! Logical, conversion and exchange instructions, opcodes E0 to EF.

use crate::address::fields;
use crate::float::{fixed, floated, EXTENDED, SINGLE};
use crate::machine::{Done, Fault, Machine};

impl Machine<'_> {
    /// Opcodes E0 to EF.
    pub(crate) fn logic(&mut self, word: u16) -> Done {
        let (a, b) = fields(word);
        match word >> 8 {
            0xE0 => return self.logic_direct(word, |left, right| left | right), // 5.81 OR
            0xE1 => self.single_result(a, self.register(a) | self.register(b)), // 5.81 ORR
            0xE2 => return self.logic_direct(word, |left, right| left & right), // 5.82 AND
            0xE3 => self.single_result(a, self.register(a) & self.register(b)), // 5.82 ANDR
            0xE4 => return self.logic_direct(word, |left, right| left ^ right), // 5.83 XOR
            0xE5 => self.single_result(a, self.register(a) ^ self.register(b)), // 5.83 XORR
            0xE6 => return self.logic_direct(word, |left, right| !(left & right)), // 5.84 N
            0xE7 => self.single_result(a, !(self.register(a) & self.register(b))), // 5.84 NR
            0xE8 => self.fix(a, b),                                             // 5.85 FIX
            0xE9 => self.float_integer(a, b),                                   // 5.86 FLT
            0xEA => self.extended_fix(a, b),                                    // 5.87 EFIX
            0xEB => self.float_double(a, b),                                    // 5.88 EFLT
            0xEC => self.single_result(a, self.register(a).swap_bytes()),       // 5.89 XBR
            0xED => self.exchange_words(a, b),                                  // 5.90 XWR
            _ => return Err(Fault::ILLEGAL),
        }
        Ok(())
    }

    /// RA combined with the operand at the direct address.
    fn logic_direct(&mut self, word: u16, operation: fn(u16, u16) -> u16) -> Done {
        let (a, _) = fields(word);
        let operand = self.direct_word(word)?;
        self.single_result(a, operation(self.register(a), operand));
        Ok(())
    }

    /// 5.85 FIX: toward zero; an exponent above 0F leaves RA and overflows.
    fn fix(&mut self, a: usize, b: usize) {
        match fixed(self.float_register(b, SINGLE), 0x0F, SINGLE) {
            Some(value) => self.single_result(a, value as u16),
            None => {
                self.note_overflow(true);
                self.single_condition(self.register(a));
            }
        }
    }

    /// 5.87 EFIX: toward zero; an exponent above 1F leaves RA and RA+1 and overflows.
    fn extended_fix(&mut self, a: usize, b: usize) {
        match fixed(self.float_register(b, EXTENDED), 0x1F, EXTENDED) {
            Some(value) => self.double_result(a, value as u32),
            None => {
                self.note_overflow(true);
                self.double_condition(self.pair(a));
            }
        }
    }

    /// 5.86 FLT: a word as a float of 32 bits.
    fn float_integer(&mut self, a: usize, b: usize) {
        let value = i128::from(self.register(b) as i16);
        self.float_result(a, floated(value, 16, SINGLE), SINGLE);
    }

    /// 5.88 EFLT: a double word as a float of 48 bits.
    fn float_double(&mut self, a: usize, b: usize) {
        let value = i128::from(self.pair(b) as i32);
        self.float_result(a, floated(value, 32, EXTENDED), EXTENDED);
    }

    /// 5.90 XWR: CS from the new RA.
    fn exchange_words(&mut self, a: usize, b: usize) {
        let (old_a, old_b) = (self.register(a), self.register(b));
        self.set_register(b, old_a);
        self.single_result(a, old_b);
    }
}
