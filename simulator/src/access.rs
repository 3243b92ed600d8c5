//! Fetches, reads and writes of logical addresses through the page registers.

use crate::machine::{Fault, Machine};
use crate::page::Access;

impl Machine<'_> {
    /// The physical place of a logical address for the running key and address state.
    fn physical(&self, access: Access, address: u16) -> Result<usize, Fault> {
        self.lookup(access, self.state.group(), self.state.key(), address)
    }

    /// Fetches the word at IC; IC moves on even where the fetch is refused.
    pub(crate) fn fetch(&mut self) -> Result<u16, Fault> {
        let address = self.state.ic;
        self.state.ic = address.wrapping_add(1);
        let place = self.physical(Access::Fetch, address)?;
        Ok(self.memory[place])
    }

    /// Reads the operand word at an address.
    pub(crate) fn read(&self, address: u16) -> Result<u16, Fault> {
        let place = self.physical(Access::Read, address)?;
        Ok(self.memory[place])
    }

    /// Reads successive words from an address on.
    pub(crate) fn read_words<const N: usize>(&self, address: u16) -> Result<[u16; N], Fault> {
        let mut words = [0; N];
        for (distance, word) in (0..).zip(words.iter_mut()) {
            *word = self.read(address.wrapping_add(distance))?;
        }
        Ok(words)
    }

    /// Checks a write and gives the place where it goes; nothing is changed yet.
    pub(crate) fn place(&self, address: u16) -> Result<usize, Fault> {
        self.physical(Access::Write, address)
    }

    /// Writes one word.
    pub(crate) fn write(&mut self, address: u16, value: u16) -> Result<(), Fault> {
        let place = self.place(address)?;
        self.memory[place] = value;
        Ok(())
    }

    /// Writes successive words from an address on, all of them or none.
    #[inline]
    pub(crate) fn write_words(&mut self, address: u16, words: &[u16]) -> Result<(), Fault> {
        let mut places = [0; 16];
        let places = &mut places[..words.len()];
        for (distance, place) in (0..).zip(places.iter_mut()) {
            *place = self.place(address.wrapping_add(distance))?;
        }
        for (place, word) in places.iter().zip(words) {
            self.memory[*place] = *word;
        }
        Ok(())
    }

    /// Reads a word, writes its change back and gives the old word.
    pub(crate) fn modify(
        &mut self,
        address: u16,
        change: impl Fn(u16) -> u16,
    ) -> Result<u16, Fault> {
        let old = self.read(address)?;
        self.write(address, change(old))?;
        Ok(old)
    }
}
