//! Page registers: their fields and the lookup of one address (4.5.2).

use crate::machine::{Fault, Machine};

/// What an access does with the word.
#[derive(Clone, Copy, PartialEq, Eq)]
pub(crate) enum Access {
    Fetch,
    Read,
    Write,
}

/// The access lock AL, bits 0 to 3.
fn lock(register: u16) -> u16 {
    register >> 12
}

/// The execute or write protection E/W, bit 4.
fn protects(register: u16) -> bool {
    register & 0x0800 != 0
}

/// The physical page address PPA, bits 8 to 15.
fn frame(register: u16) -> usize {
    usize::from(register & 0x00FF)
}

/// Whether a lock admits a key (table VII).
fn admits(lock: u16, key: u16) -> bool {
    lock == 0xF || key == 0 || key == lock
}

/// The number of a page register in the list: instruction sets first, then operand sets.
fn register_of(access: Access, group: u16, address: u16) -> usize {
    let set = if access == Access::Fetch { 0 } else { 256 };
    set + usize::from(((group & 0xF) << 4) | (address >> 12))
}

/// The memory fault status that names a page register by its number (4.4.2.8): the page in bits 0
/// to 3, bit 11 for the instruction set, the group in bits 12 to 15.
fn status_of(number: usize) -> u16 {
    let (page, group) = (number % 16, number / 16 % 16);
    let instruction = usize::from(number < 256);
    (page << 12 | instruction << 4 | group) as u16
}

impl Machine<'_> {
    /// Looks an address up for a group and a key: lock, then protection, then the memory's end. A
    /// refusal says which page register it was.
    pub(crate) fn lookup(
        &self,
        access: Access,
        group: u16,
        key: u16,
        address: u16,
    ) -> Result<usize, Fault> {
        let number = register_of(access, group, address);
        let register = self.pages[number];
        if !admits(lock(register), key) || access != Access::Read && protects(register) {
            return Err(Fault::protection(status_of(number)));
        }
        let physical = 4096 * frame(register) + usize::from(address & 0x0FFF);
        if physical >= self.memory.len() {
            return Err(Fault::address(status_of(number)));
        }
        Ok(physical)
    }
}
