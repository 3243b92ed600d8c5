//! The accesses of a step in the order of their checks, and which of them the lookup refuses.

use crate::lookup::{Access, Part, Refused, View};
use crate::shapes::{form, shape, Shape};
use crate::watch::{Next, BEX};
use simulator::State;

/// The interrupt of BEX.
const EXECUTIVE: u16 = 5;

/// The refused accesses of a step. An instruction asks for no word whose address is in a refused
/// one; an entry takes 0000 for each refused one.
pub fn refusals(state: &State, memory: &[u16], pages: &[u16], next: Next) -> Vec<Refused> {
    let view = View::running(state, memory, pages);
    let mut asked = Asked { state, view, refused: Vec::new() };
    match next {
        Next::Entry(number) => asked.entry(number as u16, 2),
        Next::Refused => {
            asked.word(Part::Code, Access::Fetch, state.ic, state.ic);
        }
        Next::Instruction { first, .. } => asked.instruction(first),
    }
    asked.refused
}

/// A step whose words are asked for, one after another.
struct Asked<'a> {
    state: &'a State,
    view: View<'a>,
    refused: Vec<Refused>,
}

impl Asked<'_> {
    /// Asks for one word, and keeps its refusal.
    fn word(&mut self, part: Part, access: Access, address: u16, from: u16) -> Option<u16> {
        match self.view.word(access, address) {
            Ok(word) => Some(word),
            Err(bit) => {
                let group = self.view.group;
                self.refused.push(Refused { part, access, group, address, from, bit });
                None
            }
        }
    }

    /// The words of an instruction after the first, which is there.
    fn instruction(&mut self, first: u16) {
        let (opcode, state) = (first >> 8, self.state);
        let privileged = matches!(opcode, 0x48 | 0x7C | 0x7D) && self.view.key != 0;
        if form(first).is_none() || privileged {
            return;
        }
        if opcode == BEX {
            return self.entry(EXECUTIVE, 2 + (first & 0xF));
        }
        let Some(address) = self.derived(first) else { return };
        let (a, b) = (usize::from((first >> 4) & 0xF), usize::from(first & 0xF));
        match opcode {
            0x7E => self.operand(Access::Write, state.r[a].wrapping_sub(1), 1),
            0x7F => self.operand(Access::Read, state.r[a], 1),
            0x8F => self.popped(a, b),
            0x93 if state.r[(a + 1) % 16] == 0 => {}
            0x93 => {
                self.operand(Access::Read, state.r[b], 1);
                self.operand(Access::Write, state.r[a], 1);
            }
            0x9F => self.pushed(a, b),
            _ => {
                let (reads, writes) = words(first);
                self.operand(Access::Read, address, reads);
                self.operand(Access::Write, address, writes);
            }
        }
    }

    /// The derived address, 0 where there is none; nothing where a word of it is refused.
    fn derived(&mut self, first: u16) -> Option<u16> {
        let shape = shape((first >> 8) as u8)?;
        let index = match usize::from(first & 0xF) {
            0 => 0,
            number => self.state.r[number],
        };
        let base = self.state.r[12 + usize::from((first >> 8) & 3)];
        match shape {
            Shape::Base => return Some(base.wrapping_add(first & 0xFF)),
            Shape::BaseIndexed => return Some(base.wrapping_add(index)),
            _ if !shape.two_words() => return Some(0),
            _ => {}
        }
        let ic = self.state.ic;
        let second = self.word(Part::Code, Access::Fetch, ic.wrapping_add(1), ic)?;
        let address = second.wrapping_add(index);
        match shape {
            Shape::Indirect => self.word(Part::Indirect, Access::Read, address, address),
            _ => Some(address),
        }
    }

    /// Successive words of an operand.
    fn operand(&mut self, access: Access, from: u16, count: u16) {
        for distance in 0..count {
            self.word(Part::Operand, access, from.wrapping_add(distance), from);
        }
    }

    /// The words of POPM; that of R15 is not read.
    fn popped(&mut self, a: usize, b: usize) {
        let from = self.state.r[15];
        for distance in (0..=(b + 16 - a) % 16).filter(|distance| a + distance != 15) {
            let address = from.wrapping_add(distance as u16);
            self.word(Part::Operand, Access::Read, address, from);
        }
    }

    /// The words of PSHM, downwards.
    fn pushed(&mut self, a: usize, b: usize) {
        let from = self.state.r[15].wrapping_sub(1);
        for distance in 0..=(b + 16 - a) % 16 {
            let address = from.wrapping_sub(distance as u16);
            self.word(Part::Operand, Access::Write, address, from);
        }
    }

    /// The words of an entry, with the distance of the new IC from the service pointer.
    fn entry(&mut self, number: u16, ic: u16) {
        self.view = self.view.entering(0);
        let [linkage, service] = [32, 33].map(|vector| {
            let address = vector + 2 * number;
            self.word(Part::Vector, Access::Read, address, address).unwrap_or(0)
        });
        let [_, sw, _] = [0, 1, ic].map(|distance| {
            let address = service.wrapping_add(distance);
            self.word(Part::Vector, Access::Read, address, service).unwrap_or(0)
        });
        self.view = self.view.entering(sw);
        for distance in 0..3 {
            let address = linkage.wrapping_add(distance);
            self.word(Part::Linkage, Access::Write, address, linkage);
        }
    }
}

/// How many words at its derived address an instruction reads, and how many it then writes.
fn words(first: u16) -> (u16, u16) {
    let registers = ((first >> 4) & 0xF) + 1;
    match first >> 8 {
        0x00..=0x3F => base_words(first >> 10, 0xF),
        0x40..=0x43 => base_words((first >> 4) & 0xF, 0xD),
        0x48 | 0x4A | 0x70..=0x73 | 0x85 => (0, 0),
        0x50 | 0x52 | 0x53 | 0x55 | 0x59 | 0x97 | 0x9B..=0x9E | 0xA3 | 0xB3 => (1, 1),
        0x90..=0x92 | 0x94 => (0, 1),
        0x96 | 0x98 => (0, 2),
        0x9A => (0, 3),
        0x99 => (0, registers),
        0x89 => (registers, 0),
        0x7C | 0x7D | 0x8A | 0xAA | 0xBA | 0xCA | 0xDA | 0xFA => (3, 0),
        0x86 | 0x88 | 0xA6 | 0xA8 | 0xB6 | 0xB8 | 0xC6 | 0xC8 | 0xD6 | 0xD8 => (2, 0),
        0xF4 | 0xF6 | 0xF8 => (2, 0),
        _ if shape((first >> 8) as u8).is_some_and(Shape::two_words) => (1, 0),
        _ => (0, 0),
    }
}

/// The same of a base relative instruction by its operation, of which one compares floats.
fn base_words(operation: u16, float_compare: u16) -> (u16, u16) {
    match operation {
        0x2 => (0, 1),
        0x3 => (0, 2),
        0x1 | 0x8..=0xB => (2, 0),
        _ if operation == float_compare => (2, 0),
        _ => (1, 0),
    }
}
