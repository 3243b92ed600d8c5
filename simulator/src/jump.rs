//! Jumps, branches, subroutine calls and load status, opcodes 70 to 7F.

use crate::address::fields;
use crate::machine::{Done, Machine};
use crate::state::{NEGATIVE, POSITIVE, ZERO};

impl Machine<'_> {
    /// Opcodes 70 to 7F.
    pub(crate) fn jumps(&mut self, word: u16) -> Done {
        let (a, b) = fields(word);
        match word >> 8 {
            0x70 => {
                let target = self.direct(word)?;
                self.jump_on_condition(a, target); // 5.24 JC
            }
            0x71 => {
                let target = self.indirect(word)?;
                self.jump_on_condition(a, target); // 5.24 JCI
            }
            0x72 => return self.jump_to_subroutine(word), // 5.25 JS
            0x73 => return self.subtract_one_and_jump(word), // 5.26 SOJ
            0x74 => self.state.ic = self.relative(word),  // 5.27 BR
            0x75 => self.branch(word, &[ZERO]),           // 5.28 BEZ
            0x76 => self.branch(word, &[NEGATIVE]),       // 5.29 BLT
            0x77 => self.branch_to_executive(b as u16),   // 5.30 BEX
            0x78 => self.branch(word, &[ZERO, NEGATIVE]), // 5.31 BLE
            0x79 => self.branch(word, &[POSITIVE]),       // 5.32 BGT
            0x7A => self.branch(word, &[POSITIVE, NEGATIVE]), // 5.33 BNZ
            0x7B => self.branch(word, &[POSITIVE, ZERO]), // 5.34 BGE
            0x7C | 0x7D => return self.load_status(word), // 5.35 LSTI, LST
            0x7E => return self.stack_and_jump(word),     // 5.36 SJS
            _ => return self.unstack_and_return(a),       // 5.37 URS
        }
        Ok(())
    }

    /// 5.24: a common bit of C and CS, or C = 7 or F.
    fn jump_on_condition(&mut self, c: usize, target: u16) {
        let common = c as u16 & self.state.condition();
        if common != 0 || c == 7 || c == 15 {
            self.state.ic = target;
        }
    }

    /// 5.25 JS: the next address to RA.
    fn jump_to_subroutine(&mut self, word: u16) -> Done {
        let target = self.direct(word)?;
        self.set_register(fields(word).0, self.state.ic);
        self.state.ic = target;
        Ok(())
    }

    /// 5.26 SOJ: a jump unless RA has become 0.
    fn subtract_one_and_jump(&mut self, word: u16) -> Done {
        let (a, _) = fields(word);
        let target = self.direct(word)?;
        let left = self.register(a).wrapping_sub(1);
        self.single_result(a, left);
        if left != 0 {
            self.state.ic = target;
        }
        Ok(())
    }

    /// 5.28, 5.29, 5.31 to 5.34: taken where CS without carry is one of the patterns.
    fn branch(&mut self, word: u16, patterns: &[u16]) {
        if patterns.contains(&(self.state.condition() & 7)) {
            self.state.ic = self.relative(word);
        }
    }

    /// 5.35 LST, LSTI: privileged; MK, SW and IC from three words.
    fn load_status(&mut self, word: u16) -> Done {
        self.privileged()?;
        let address = if word >> 8 == 0x7C { self.indirect(word)? } else { self.direct(word)? };
        let [mk, sw, ic] = self.read_words(address)?;
        (self.state.mk, self.state.sw, self.state.ic) = (mk, sw, ic);
        Ok(())
    }

    /// 5.36 SJS: the next address onto the stack of RA.
    fn stack_and_jump(&mut self, word: u16) -> Done {
        let (a, _) = fields(word);
        let target = self.direct(word)?;
        let top = self.register(a).wrapping_sub(1);
        self.write(top, self.state.ic)?;
        self.set_register(a, top);
        self.state.ic = target;
        Ok(())
    }

    /// 5.37 URS: IC from the stack of RA.
    fn unstack_and_return(&mut self, a: usize) -> Done {
        let top = self.register(a);
        self.state.ic = self.read(top)?;
        self.set_register(a, top.wrapping_add(1));
        Ok(())
    }
}
