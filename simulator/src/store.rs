//! Store instructions, opcodes 90 to 9F; none of them sets CS.

use crate::address::{fields, split};
use crate::machine::{Done, Fault, Machine};

impl Machine<'_> {
    /// Opcodes 90 to 9F.
    pub(crate) fn stores(&mut self, word: u16) -> Done {
        let (a, b) = fields(word);
        match word >> 8 {
            0x90 => {
                let address = self.direct(word)?;
                self.write(address, self.register(a)) // 5.45 ST
            }
            0x91 => {
                let address = self.direct(word)?;
                self.write(address, a as u16) // 5.46 STC
            }
            0x92 => {
                let address = self.indirect(word)?;
                self.write(address, a as u16) // 5.46 STCI
            }
            0x93 => self.move_word(a, b), // 5.47 MOV
            0x94 => {
                let address = self.indirect(word)?;
                self.write(address, self.register(a)) // 5.45 STI
            }
            0x96 | 0x98 => self.store_double(word), // 5.48 DST, DSTI
            0x97 => self.store_through_mask(word),  // 5.49 SRM
            0x99 => self.store_multiple(word),      // 5.50 STM
            0x9A => self.store_extended(word),      // 5.51 EFST
            0x9B..=0x9E => self.store_byte(word),   // 5.52, 5.53
            0x9F => self.push_multiple(a, b),       // 5.54 PSHM
            _ => Err(Fault::ILLEGAL),
        }
    }

    /// 5.47 MOV: one word a step; IC goes back while the count is not 0.
    fn move_word(&mut self, a: usize, b: usize) -> Done {
        let count = (a + 1) & 15;
        if self.state.r[count] == 0 {
            return Ok(());
        }
        let value = self.read(self.state.r[b])?;
        self.write(self.state.r[a], value)?;
        let registers = &mut self.state.r;
        registers[a] = registers[a].wrapping_add(1);
        registers[b] = registers[b].wrapping_add(1);
        registers[count] = registers[count].wrapping_sub(1);
        if registers[count] != 0 {
            self.state.ic = self.state.ic.wrapping_sub(1);
        }
        Ok(())
    }

    /// 5.48 DST, DSTI.
    fn store_double(&mut self, word: u16) -> Done {
        let address = if word >> 8 == 0x98 { self.indirect(word)? } else { self.direct(word)? };
        self.write_words(address, &split(self.pair(fields(word).0)))
    }

    /// 5.49 SRM: the bits of RA that the mask in RA+1 chooses; a read and a write.
    fn store_through_mask(&mut self, word: u16) -> Done {
        let (a, _) = fields(word);
        let address = self.direct(word)?;
        let (data, mask) = (self.register(a), self.register(a + 1));
        self.modify(address, |old| (old & !mask) | (data & mask))?;
        Ok(())
    }

    /// 5.50 STM: R0 to RN, all of them or none.
    fn store_multiple(&mut self, word: u16) -> Done {
        let address = self.direct(word)?;
        let registers = self.state.r;
        self.write_words(address, &registers[..=fields(word).0])
    }

    /// 5.51 EFST.
    fn store_extended(&mut self, word: u16) -> Done {
        let (a, _) = fields(word);
        let address = self.direct(word)?;
        let words = [0, 1, 2].map(|distance| self.register(a + distance));
        self.write_words(address, &words)
    }

    /// 5.52 STUB, SUBI and 5.53 STLB, SLBI: the lower byte of RA; a read and a write.
    fn store_byte(&mut self, word: u16) -> Done {
        let byte = self.register(fields(word).0) & 0xFF;
        let opcode = word >> 8;
        let address = if opcode >= 0x9D { self.indirect(word)? } else { self.direct(word)? };
        let upper = opcode == 0x9B || opcode == 0x9D;
        self.modify(address, |old| match upper {
            true => (old & 0x00FF) | (byte << 8),
            false => (old & 0xFF00) | byte,
        })?;
        Ok(())
    }
}
