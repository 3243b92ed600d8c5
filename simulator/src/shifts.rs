//! Shift instructions, opcodes 60 to 6F.

use crate::address::fields;
use crate::machine::{Done, Fault, Machine};
use crate::shift::{by_count, cyclic, left, right, right_with_sign, Manner};
use crate::state::FIXED_OVERFLOW;

impl Machine<'_> {
    /// Opcodes 60 to 6F.
    pub(crate) fn shifts(&mut self, word: u16) -> Done {
        let (a, b) = fields(word);
        let count = a as u32 + 1;
        let single = u32::from(self.register(b));
        let double = self.pair(b);
        match word >> 8 {
            0x60 => self.single_result(b, left(single, count, 16) as u16), // 5.10 SLL
            0x61 => self.single_result(b, right(single, count) as u16),    // 5.11 SRL
            0x62 => self.single_result(b, right_with_sign(single, count, 16) as u16), // 5.12 SRA
            0x63 => self.single_result(b, cyclic(single, count, 16) as u16), // 5.13 SLC
            0x65 => self.double_result(b, left(double, count, 32)),        // 5.14 DSLL
            0x66 => self.double_result(b, right(double, count)),           // 5.15 DSRL
            0x67 => self.double_result(b, right_with_sign(double, count, 32)), // 5.16 DSRA
            0x68 => self.double_result(b, cyclic(double, count, 32)),      // 5.17 DSLC
            0x6A => self.shift_single(a, b, Manner::Logical),              // 5.18 SLR
            0x6B => self.shift_single(a, b, Manner::Arithmetic),           // 5.19 SAR
            0x6C => self.shift_single(a, b, Manner::Cyclic),               // 5.20 SCR
            0x6D => self.shift_double(a, b, Manner::Logical),              // 5.21 DSLR
            0x6E => self.shift_double(a, b, Manner::Arithmetic),           // 5.22 DSAR
            0x6F => self.shift_double(a, b, Manner::Cyclic),               // 5.23 DSCR
            _ => return Err(Fault::ILLEGAL),
        }
        Ok(())
    }

    /// 5.18 to 5.20: one register by the count in another.
    fn shift_single(&mut self, a: usize, b: usize, manner: Manner) {
        let count = self.register(b) as i16;
        let (value, overflow) = by_count(u32::from(self.register(a)), count, manner, 16);
        self.note_overflow(overflow);
        self.single_result(a, value as u16);
    }

    /// 5.21 to 5.23: two registers by the count in another.
    fn shift_double(&mut self, a: usize, b: usize, manner: Manner) {
        let count = self.register(b) as i16;
        let (value, overflow) = by_count(self.pair(a), count, manner, 32);
        self.note_overflow(overflow);
        self.double_result(a, value);
    }

    /// Sets the fixed point overflow interrupt where there was an overflow.
    pub(crate) fn note_overflow(&mut self, overflow: bool) {
        if overflow {
            self.state.pi |= FIXED_OVERFLOW;
        }
    }
}
