//! Blocks of registers on the stack of R15.

use crate::machine::{Done, Machine};

/// How many registers there are from RA to RB, past R15 to R0 where RA is above RB.
fn block(a: usize, b: usize) -> usize {
    (b + 16 - a) % 16 + 1
}

impl Machine<'_> {
    /// 5.44 POPM: R15's own word is neither read nor checked, R15 rises for it all the same.
    pub(crate) fn pop_multiple(&mut self, a: usize, b: usize) -> Done {
        let mut registers = self.state.r;
        for distance in 0..block(a, b) {
            let number = (a + distance) % 16;
            if number != 15 {
                registers[number] = self.read(registers[15])?;
            }
            registers[15] = registers[15].wrapping_add(1);
        }
        self.state.r = registers;
        Ok(())
    }

    /// 5.54 PSHM: from RB down to RA; R15 is stored as just decremented.
    pub(crate) fn push_multiple(&mut self, a: usize, b: usize) -> Done {
        let size = block(a, b);
        let mut places = [0; 16];
        let mut top = self.register(15);
        for place in &mut places[..size] {
            top = top.wrapping_sub(1);
            *place = self.place(top)?;
        }
        for (distance, place) in places[..size].iter().enumerate() {
            self.state.r[15] = self.state.r[15].wrapping_sub(1);
            self.memory[*place] = self.state.r[(b + 16 - distance) % 16];
        }
        Ok(())
    }
}
