//! Interrupt entry (4.6.1.4) and the branch to the executive.

use crate::machine::{Fault, Machine};
use crate::page::Access;

/// The interrupt of the executive call.
const EXECUTIVE: u16 = 5;

impl Machine<'_> {
    /// Enters an interrupt: new state from the service pointer, old state to the linkage pointer.
    pub(crate) fn enter(&mut self, number: u16) {
        self.begin_entry(number);
        let linkage = self.vector_word(32 + 2 * number);
        let service = self.vector_word(33 + 2 * number);
        let new = [0, 1, 2].map(|distance| self.vector_word(service.wrapping_add(distance)));
        self.exchange(linkage, new);
    }

    /// 5.30 BEX: the executive call's entry with one of 16 new instruction counters.
    pub(crate) fn branch_to_executive(&mut self, entry: u16) {
        self.begin_entry(EXECUTIVE);
        let service = self.vector_word(33 + 2 * EXECUTIVE);
        let new =
            [0, 1, 2 + entry].map(|distance| self.vector_word(service.wrapping_add(distance)));
        let linkage = self.vector_word(32 + 2 * EXECUTIVE);
        self.exchange(linkage, new);
    }

    /// Clears the interrupt's bit in PI and disables interrupts.
    fn begin_entry(&mut self, number: u16) {
        self.state.pi &= !(0x8000 >> number);
        self.state.enabled = false;
    }

    /// Reads with address state 0 and key 0; a refused word counts as 0 and sets its fault.
    fn vector_word(&mut self, address: u16) -> u16 {
        match self.lookup(Access::Read, 0, 0, address) {
            Ok(place) => self.memory[place],
            Err(fault) => {
                self.raise(fault);
                0
            }
        }
    }

    /// Stores old MK, SW, IC in the new address state, all or none, and takes the new ones.
    fn exchange(&mut self, linkage: u16, new: [u16; 3]) {
        let state = &mut *self.state;
        let old = [state.mk, state.sw, state.ic];
        [state.mk, state.sw, state.ic] = new;
        match self.linkage_places(linkage) {
            Ok(places) => {
                for (place, word) in places.into_iter().zip(old) {
                    self.memory[place] = word;
                }
            }
            Err(fault) => self.raise(fault),
        }
    }

    /// The places of the three stores, or the first refusal among them.
    fn linkage_places(&self, linkage: u16) -> Result<[usize; 3], Fault> {
        let mut places = [0; 3];
        for (distance, place) in (0..).zip(places.iter_mut()) {
            let address = linkage.wrapping_add(distance);
            *place = self.lookup(Access::Write, self.state.group(), 0, address)?;
        }
        Ok(places)
    }
}
