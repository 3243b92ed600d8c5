//! Bit instructions, opcodes 50 to 5F.

use crate::address::fields;
use crate::machine::{Done, Fault, Machine};
use crate::state::{NEGATIVE, POSITIVE, ZERO};

/// The word with bit number `number` set, bit 0 the most significant.
fn bit(number: usize) -> u16 {
    0x8000 >> number
}

impl Machine<'_> {
    /// Opcodes 50 to 5F: bit number or its register in the first field.
    pub(crate) fn bits(&mut self, word: u16) -> Done {
        let (n, b) = fields(word);
        match word >> 8 {
            0x50 | 0x52 => return self.set_memory_bit(word), // 5.3 SB, SBI
            0x51 => self.state.r[b] |= bit(n),               // 5.3 SBR
            0x53 | 0x55 => return self.reset_memory_bit(word), // 5.4 RB, RBI
            0x54 => self.state.r[b] &= !bit(n),              // 5.4 RBR
            0x56 => {
                let operand = self.direct_word(word)?;
                self.test(operand, n); // 5.5 TB
            }
            0x57 => self.test(self.register(b), n), // 5.5 TBR
            0x58 => {
                let operand = self.indirect_word(word)?;
                self.test(operand, n); // 5.5 TBI
            }
            0x59 => return self.test_and_set(word), // 5.6 TSB
            0x5A => self.state.r[b] |= bit(self.bit_number(n)), // 5.7 SVBR
            0x5C => self.state.r[b] &= !bit(self.bit_number(n)), // 5.8 RVBR
            0x5E => self.test(self.register(b), self.bit_number(n)), // 5.9 TVBR
            _ => return Err(Fault::ILLEGAL),
        }
        Ok(())
    }

    /// The bit number in a register, its last four bits.
    fn bit_number(&self, register: usize) -> usize {
        usize::from(self.register(register) & 0xF)
    }

    /// The address of SB, RB (D, DX) or of SBI, RBI (I, IX).
    fn bit_address(&mut self, word: u16) -> Result<u16, Fault> {
        match word >> 8 {
            0x52 | 0x55 => self.indirect(word),
            _ => self.direct(word),
        }
    }

    /// 5.3 SB, SBI: a read and a write.
    fn set_memory_bit(&mut self, word: u16) -> Done {
        let address = self.bit_address(word)?;
        self.modify(address, |old| old | bit(fields(word).0))?;
        Ok(())
    }

    /// 5.4 RB, RBI: a read and a write.
    fn reset_memory_bit(&mut self, word: u16) -> Done {
        let address = self.bit_address(word)?;
        self.modify(address, |old| old & !bit(fields(word).0))?;
        Ok(())
    }

    /// 5.6 TSB: CS by the old bit; always a read and a write.
    fn test_and_set(&mut self, word: u16) -> Done {
        let (n, _) = fields(word);
        let address = self.bit_address(word)?;
        let old = self.modify(address, |old| old | bit(n))?;
        self.test(old, n);
        Ok(())
    }

    /// 5.5, 5.6, 5.9: CS by one bit; bit 0 counts as the sign.
    fn test(&mut self, operand: u16, number: usize) {
        let condition = match (operand & bit(number), number) {
            (0, _) => ZERO,
            (_, 0) => NEGATIVE,
            _ => POSITIVE,
        };
        self.state.set_condition(condition);
    }
}
