//! Add and absolute value instructions, opcodes A0 to AF.

use crate::address::{fields, short};
use crate::fixed::{double_sum, single_sum, Total};
use crate::float::{self, EXTENDED, SINGLE};
use crate::machine::{Done, Fault, Machine};
use crate::state::{sign_condition, CARRY};

impl Machine<'_> {
    /// Opcodes A0 to AF.
    pub(crate) fn sums(&mut self, word: u16) -> Done {
        let (a, b) = fields(word);
        match word >> 8 {
            0xA0 => {
                let operand = self.direct_word(word)?;
                self.add(a, operand); // 5.55 A
            }
            0xA1 => self.add(a, self.register(b)), // 5.55 AR
            0xA2 => self.add(a, short(word)),      // 5.55 AISP
            0xA3 => return self.increment(word),   // 5.56 INCM
            0xA4 => self.absolute(a, b),           // 5.57 ABS
            0xA5 => self.double_absolute(a, b),    // 5.58 DABS
            0xA6 => {
                let operand = self.direct_double(word)?;
                self.double_add(a, operand); // 5.59 DA
            }
            0xA7 => self.double_add(a, self.pair(b)), // 5.59 DAR
            0xA8 => return self.float_direct(word, SINGLE, float::sum), // 5.60 FA
            0xA9 => self.float_registers(word, SINGLE, float::sum), // 5.60 FAR
            0xAA => return self.float_direct(word, EXTENDED, float::sum), // 5.61 EFA
            0xAB => self.float_registers(word, EXTENDED, float::sum), // 5.61 EFAR
            0xAC => self.float_of_register(word, float::absolute), // 5.62 FABS
            _ => return Err(Fault::ILLEGAL),
        }
        Ok(())
    }

    /// 5.55: RA plus the operand.
    pub(crate) fn add(&mut self, a: usize, operand: u16) {
        self.single_total(a, single_sum(self.register(a), operand));
    }

    /// 5.59: RA and RA+1 plus the operand.
    fn double_add(&mut self, a: usize, operand: u32) {
        self.double_total(a, double_sum(self.pair(a), operand));
    }

    /// 5.56 INCM: a read and a write.
    fn increment(&mut self, word: u16) -> Done {
        let n = fields(word).0 as u16 + 1;
        let address = self.direct(word)?;
        let old = self.modify(address, |old| old.wrapping_add(n))?;
        self.total_status(single_sum(old, n));
        Ok(())
    }

    /// 5.57 ABS: 8000 stays and overflows.
    fn absolute(&mut self, a: usize, b: usize) {
        let operand = self.register(b);
        self.note_overflow(operand == 0x8000);
        self.single_result(a, (operand as i16).unsigned_abs());
    }

    /// 5.58 DABS: 8000 0000 stays and overflows.
    fn double_absolute(&mut self, a: usize, b: usize) {
        let operand = self.pair(b);
        self.note_overflow(operand == 0x8000_0000);
        self.double_result(a, (operand as i32).unsigned_abs());
    }

    /// Stores a single sum or difference; CS with carry.
    pub(crate) fn single_total(&mut self, a: usize, total: Total<u16>) {
        self.set_register(a, total.value);
        self.total_status(total);
    }

    /// Stores a double sum or difference; CS with carry.
    pub(crate) fn double_total(&mut self, a: usize, total: Total<u32>) {
        self.set_pair(a, total.value);
        let sign = sign_condition(i64::from(total.value as i32));
        self.carry_status(sign, total.carry, total.overflow);
    }

    /// CS and overflow of a single sum or difference.
    pub(crate) fn total_status(&mut self, total: Total<u16>) {
        let sign = sign_condition(i64::from(total.value as i16));
        self.carry_status(sign, total.carry, total.overflow);
    }

    /// CS from sign and carry, and fixed point overflow.
    fn carry_status(&mut self, sign: u16, carry: bool, overflow: bool) {
        self.note_overflow(overflow);
        self.state.set_condition(if carry { sign | CARRY } else { sign });
    }
}
