//! The dispatch of one instruction: by the opcode's upper digit here, by the opcode in the groups.

use crate::address::fields;
use crate::machine::{Done, Fault, Machine};

impl Machine<'_> {
    /// Runs the instruction that a fetched word begins; a fault leaves everything but IC unchanged.
    pub(crate) fn perform(&mut self, word: u16) -> Done {
        match word >> 12 {
            0x0..=0x3 => self.base_relative(word),
            0x4 => self.extended(word),
            0x5 => self.bits(word),
            0x6 => self.shifts(word),
            0x7 => self.jumps(word),
            0x8 => self.loads(word),
            0x9 => self.stores(word),
            0xA => self.sums(word),
            0xB => self.differences(word),
            0xC => self.products(word),
            0xD => self.divisions(word),
            0xE => self.logic(word),
            _ => self.compares(word),
        }
    }

    /// Opcodes 40 to 4F.
    fn extended(&mut self, word: u16) -> Done {
        match word >> 8 {
            0x40..=0x43 => self.base_indexed(word),
            0x48 => self.input_output(word), // 5.1 XIO
            0x4A => self.immediate(word),
            _ => Err(Fault::ILLEGAL),
        }
    }

    /// Opcode 4A: immediate operands, the operation in the last digit (4.2.6).
    fn immediate(&mut self, word: u16) -> Done {
        let (a, extension) = fields(word);
        if !(0x1..=0xB).contains(&extension) {
            return Err(Fault::ILLEGAL);
        }
        let data = self.fetch()?;
        match extension {
            0x1 => self.add(a, data),                               // 5.55 AIM
            0x2 => self.subtract(a, data),                          // 5.63 SIM
            0x3 => self.multiply_long(a, data),                     // 5.72 MIM
            0x4 => self.multiply_short(a, data),                    // 5.71 MSIM
            0x5 => self.divide_long(a, data),                       // 5.77 DIM
            0x6 => self.divide_short(a, data),                      // 5.76 DVIM
            0x7 => self.single_result(a, self.register(a) & data),  // 5.82 ANDM
            0x8 => self.single_result(a, self.register(a) | data),  // 5.81 ORIM
            0x9 => self.single_result(a, self.register(a) ^ data),  // 5.83 XORM
            0xA => self.compare(a, data),                           // 5.91 CIM
            _ => self.single_result(a, !(self.register(a) & data)), // 5.84 NIM
        }
        Ok(())
    }
}
