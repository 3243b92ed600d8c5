//! Base relative (4.3.9) and base relative indexed (4.3.10) instructions, opcodes 00 to 43.

use crate::address::{joined, split};
use crate::float::{self, SINGLE};
use crate::float_machine::Operation;
use crate::machine::{Done, Fault, Machine};

/// The accumulator of single operations.
const ONE_WORD: usize = 2;
/// The accumulator of double and float operations.
const TWO_WORDS: usize = 0;

impl Machine<'_> {
    /// The contents of the base register, R12 to R15.
    fn base(&self, word: u16) -> u16 {
        self.register(12 + usize::from((word >> 8) & 3))
    }

    /// Opcodes 00 to 3F: base register plus an unsigned displacement.
    pub(crate) fn base_relative(&mut self, word: u16) -> Done {
        let address = self.base(word).wrapping_add(word & 0xFF);
        match word >> 10 {
            0xC => self.base_or(address),            // 5.81 ORB
            0xD => self.base_and(address),           // 5.82 ANDB
            0xE => self.base_compare(address),       // 5.91 CB
            0xF => self.base_float_compare(address), // 5.94 FCB
            common => self.base_common(common, address),
        }
    }

    /// Opcodes 40 to 43: base register plus index, the operation in bits 8 to 11.
    pub(crate) fn base_indexed(&mut self, word: u16) -> Done {
        let address = self.base(word).wrapping_add(self.index(word));
        match (word >> 4) & 0xF {
            0xC => self.base_compare(address),       // 5.91 CBX
            0xD => self.base_float_compare(address), // 5.94 FCBX
            0xE => self.base_and(address),           // 5.82 ANDX
            0xF => self.base_or(address),            // 5.81 ORBX
            common => self.base_common(common, address),
        }
    }

    /// The operations whose number is the same in both forms.
    fn base_common(&mut self, operation: u16, address: u16) -> Done {
        match operation {
            0x0 => self.single_result(ONE_WORD, self.read(address)?), // 5.38 LB, LBX
            0x1 => self.double_result(TWO_WORDS, self.base_double(address)?), // 5.39 DLB, DLBX
            0x2 => return self.write(address, self.register(ONE_WORD)), // 5.45 STB, STBX
            0x3 => return self.write_words(address, &split(self.pair(TWO_WORDS))), // 5.48 DSTB, DSTX
            0x4 => self.add(ONE_WORD, self.read(address)?),                        // 5.55 AB, ABX
            0x5 => self.subtract(ONE_WORD, self.read(address)?),                   // 5.63 SBB, SBBX
            0x6 => self.multiply_long(ONE_WORD, self.read(address)?),              // 5.72 MB, MBX
            0x7 => self.divide_long(ONE_WORD, self.read(address)?),                // 5.77 DB, DBX
            0x8 => return self.base_float(address, float::sum),                    // 5.60 FAB, FABX
            0x9 => return self.base_float(address, float::difference),             // 5.68 FSB, FSBX
            0xA => return self.base_float(address, float::product),                // 5.74 FMB, FMBX
            _ => return self.base_float(address, float::quotient),                 // 5.79 FDB, FDBX
        }
        Ok(())
    }

    /// The double operand at an address.
    fn base_double(&self, address: u16) -> Result<u32, Fault> {
        self.read_words(address).map(joined)
    }

    /// A float operation of R0 and R1 with the operand at an address.
    fn base_float(&mut self, address: u16, operation: Operation) -> Done {
        let operand = self.float_at(address, SINGLE)?;
        self.float_operation(TWO_WORDS, operand, SINGLE, operation);
        Ok(())
    }

    /// 5.81 ORB, ORBX.
    fn base_or(&mut self, address: u16) -> Done {
        let operand = self.read(address)?;
        self.single_result(ONE_WORD, self.register(ONE_WORD) | operand);
        Ok(())
    }

    /// 5.82 ANDB, ANDX.
    fn base_and(&mut self, address: u16) -> Done {
        let operand = self.read(address)?;
        self.single_result(ONE_WORD, self.register(ONE_WORD) & operand);
        Ok(())
    }

    /// 5.91 CB, CBX.
    fn base_compare(&mut self, address: u16) -> Done {
        let operand = self.read(address)?;
        self.compare(ONE_WORD, operand);
        Ok(())
    }

    /// 5.94 FCB, FCBX.
    fn base_float_compare(&mut self, address: u16) -> Done {
        let operand = self.float_at(address, SINGLE)?;
        self.float_compare(TWO_WORDS, operand, SINGLE);
        Ok(())
    }
}
