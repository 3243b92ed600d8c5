//! Load instructions, opcodes 80 to 8F.

use crate::address::{fields, joined, short};
use crate::float::{Float, EXTENDED};
use crate::machine::{Done, Machine};

impl Machine<'_> {
    /// Opcodes 80 to 8F.
    pub(crate) fn loads(&mut self, word: u16) -> Done {
        let (a, b) = fields(word);
        match word >> 8 {
            0x80 => {
                let operand = self.direct_word(word)?;
                self.single_result(a, operand); // 5.38 L
            }
            0x81 => self.single_result(a, self.register(b)), // 5.38 LR
            0x82 => self.single_result(a, short(word)),      // 5.38 LISP
            0x83 => self.single_result(a, short(word).wrapping_neg()), // 5.38 LISN
            0x84 => {
                let operand = self.indirect_word(word)?;
                self.single_result(a, operand); // 5.38 LI
            }
            0x85 => {
                let operand = self.direct(word)?;
                self.single_result(a, operand); // 5.38 LIM
            }
            0x86 => {
                let operand = self.direct_double(word)?;
                self.double_result(a, operand); // 5.39 DL
            }
            0x87 => self.double_result(a, self.pair(b)), // 5.39 DLR
            0x88 => return self.load_double_indirect(word), // 5.39 DLI
            0x89 => return self.load_multiple(word),     // 5.40 LM
            0x8A => return self.load_extended(word),     // 5.41 EFL
            0x8B..=0x8E => return self.load_byte(word),  // 5.42, 5.43
            _ => return self.pop_multiple(a, b),         // 5.44 POPM
        }
        Ok(())
    }

    /// 5.39 DLI.
    fn load_double_indirect(&mut self, word: u16) -> Done {
        let address = self.indirect(word)?;
        let operand = self.read_words(address).map(joined)?;
        self.double_result(fields(word).0, operand);
        Ok(())
    }

    /// 5.40 LM: R0 to RN; CS stays.
    fn load_multiple(&mut self, word: u16) -> Done {
        let address = self.direct(word)?;
        let mut registers = self.state.r;
        for (distance, register) in (0..=fields(word).0 as u16).zip(registers.iter_mut()) {
            *register = self.read(address.wrapping_add(distance))?;
        }
        self.state.r = registers;
        Ok(())
    }

    /// 5.41 EFL: three words as they are, CS from the mantissa.
    fn load_extended(&mut self, word: u16) -> Done {
        let (a, _) = fields(word);
        let address = self.direct(word)?;
        let words: [u16; 3] = self.read_words(address)?;
        for (distance, word) in words.into_iter().enumerate() {
            self.set_register(a + distance, word);
        }
        self.float_condition(Float::unpack(words, EXTENDED));
        Ok(())
    }

    /// 5.42 LUB, LUBI and 5.43 LLB, LLBI: a byte into the lower byte of RA.
    fn load_byte(&mut self, word: u16) -> Done {
        let (a, _) = fields(word);
        let byte = match word >> 8 {
            0x8B => self.direct_word(word)? >> 8,   // 5.42 LUB
            0x8C => self.direct_word(word)? & 0xFF, // 5.43 LLB
            0x8D => self.indirect_word(word)? >> 8, // 5.42 LUBI
            _ => self.indirect_word(word)? & 0xFF,  // 5.43 LLBI
        };
        self.single_result(a, (self.register(a) & 0xFF00) | byte);
        Ok(())
    }
}
