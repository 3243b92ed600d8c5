//! The address lookup as the comparison has it: the word behind a logical address, or what refuses it.

use simulator::State;

/// The bits of FT that a refusal sets: by a lock or a protection, by the memory's end.
pub const PROTECTION: u16 = 0x8000;
pub const OUTSIDE: u16 = 0x0080;

/// What an access does with the word.
#[derive(Clone, Copy, Debug, PartialEq, Eq)]
pub enum Access {
    Fetch,
    Read,
    Write,
}

/// What a word is to its step.
#[derive(Clone, Copy, Debug, PartialEq, Eq)]
pub enum Part {
    /// A word of the instruction.
    Code,
    /// The address of the operand.
    Indirect,
    /// A word of the operand.
    Operand,
    /// A word that an entry reads.
    Vector,
    /// A word that an entry stores.
    Linkage,
}

/// An access that the lookup refuses.
#[derive(Clone, Copy, Debug, PartialEq, Eq)]
pub struct Refused {
    pub part: Part,
    pub access: Access,
    /// The address state that chooses the page register.
    pub group: u16,
    pub address: u16,
    /// The address of the first of the words that belong together.
    pub from: u16,
    /// The bit of FT that it sets.
    pub bit: u16,
}

impl Refused {
    /// The memory fault status that shows it.
    pub fn status(&self) -> u16 {
        self.status_at(self.address, self.group)
    }

    /// That of the same access at another address, with another address state.
    pub fn status_at(&self, address: u16, group: u16) -> u16 {
        let instruction_set = u16::from(self.access == Access::Fetch);
        (address & 0xF000) | (instruction_set << 4) | (group & 0xF)
    }

    /// Whether it is refused by another page register than the first of its words would be.
    pub fn is_behind_another(&self) -> bool {
        (self.address ^ self.from) & 0xF000 != 0
    }
}

/// Memory behind page registers, as one address state and one key see it.
#[derive(Clone, Copy)]
pub struct View<'a> {
    memory: &'a [u16],
    pages: &'a [u16],
    pub group: u16,
    pub key: u16,
}

impl<'a> View<'a> {
    /// As the instructions of a state see it.
    pub fn running(state: &State, memory: &'a [u16], pages: &'a [u16]) -> View<'a> {
        View { memory, pages, group: state.sw & 0xF, key: (state.sw >> 4) & 0xF }
    }

    /// As an entry sees it, with the address state of a SW.
    pub fn entering(self, sw: u16) -> View<'a> {
        View { group: sw & 0xF, key: 0, ..self }
    }

    /// The word at an address, or the bit of FT that its refusal sets.
    pub fn word(&self, access: Access, address: u16) -> Result<u16, u16> {
        let set = if access == Access::Fetch { 0 } else { 256 };
        let number = set + usize::from((self.group << 4) | (address >> 12));
        let register = *self.pages.get(number).ok_or(PROTECTION)?;
        let lock = register >> 12;
        let admitted = lock == 0xF || self.key == 0 || self.key == lock;
        if !admitted || access != Access::Read && register & 0x0800 != 0 {
            return Err(PROTECTION);
        }
        self.memory.get(place(register, address)).copied().ok_or(OUTSIDE)
    }
}

/// The physical place of an address by its page register.
pub fn place(register: u16, address: u16) -> usize {
    4096 * usize::from(register & 0xFF) + usize::from(address & 0x0FFF)
}
