//! What a step can come to for the memory fault status, by name: the moments that the comparison has to reach.

use crate::lookup::{Access, Part, Refused, OUTSIDE, PROTECTION};
use crate::watch::{Next, Seen, BEX};
use simulator::State;

/// The reserved bits of the status.
const RESERVED: u16 = 0x0FE0;

/// A step with a refusal that changes the status to what shows it.
struct Shown<'a> {
    seen: &'a Seen<'a>,
    refused: &'a Refused,
}

impl Shown<'_> {
    /// Whether it is the first word of an instruction.
    fn first(&self) -> bool {
        self.seen.next == Next::Refused
    }

    /// Whether it is the second word of an instruction.
    fn second(&self) -> bool {
        self.refused.part == Part::Code && !self.first()
    }

    /// Whether it is a word of this part, refused with this bit of FT.
    fn of(&self, part: Part, bit: u16) -> bool {
        self.refused.part == part && self.refused.bit == bit
    }

    /// Whether it is an access to an operand, refused with this bit of FT.
    fn operand(&self, access: Access, bit: u16) -> bool {
        self.of(Part::Operand, bit) && self.refused.access == access
    }

    /// Whether it is a word of this part, in an address state other than 0.
    fn grouped(&self, part: Part) -> bool {
        self.refused.part == part && self.refused.group != 0
    }

    /// Whether it is a later word of this part, behind another page register than the first.
    fn later(&self, part: Part) -> bool {
        self.refused.part == part && self.refused.is_behind_another()
    }

    /// Whether it is an access of an instruction with this opcode.
    fn opcode(&self, opcode: u16) -> bool {
        matches!(self.seen.next, Next::Instruction { first, .. } if first >> 8 == opcode)
    }

    /// Whether another word of this part is refused too, which the status would show otherwise.
    fn also(&self, part: Part) -> bool {
        let differs = |other: &Refused| other.status() != self.refused.status();
        self.seen.refusals.iter().any(|other| other.part == part && differs(other))
    }

    /// Whether the address state of SW before the step is another one.
    fn elsewhere(&self) -> bool {
        self.refused.group != self.seen.before.sw & 0xF
    }

    /// Whether an entry has its new SW refused, and then a store.
    fn without_status_word(&self) -> bool {
        let is_sw = |other: &Refused| {
            other.part == Part::Vector && other.address == other.from.wrapping_add(1)
        };
        self.refused.part == Part::Linkage && self.seen.refusals.iter().any(is_sw)
    }

    /// Whether its bit of FT was set already.
    fn again(&self) -> bool {
        self.seen.before.ft & self.refused.bit != 0
    }
}

/// A moment's name, and whether a refusal that is shown is such a moment.
type OfShown = (&'static str, fn(&Shown) -> bool);
/// A moment's name, and whether a step without a refusal is such a moment.
type OfGiven = (&'static str, fn(&Seen, &State) -> bool);

/// The moments of a status that a refusal changes.
const SHOWN: [OfShown; 33] = [
    ("a first word behind a lock or a protection", |s| s.first() && s.of(Part::Code, PROTECTION)),
    ("a first word outside the memory", |s| s.first() && s.of(Part::Code, OUTSIDE)),
    ("a first word, AS not 0", |s| s.first() && s.grouped(Part::Code)),
    ("a second word behind a lock or a protection", |s| s.second() && s.of(Part::Code, PROTECTION)),
    ("a second word outside the memory", |s| s.second() && s.of(Part::Code, OUTSIDE)),
    ("a second word, AS not 0", |s| s.second() && s.grouped(Part::Code)),
    ("a second word at 0000", |s| s.second() && s.refused.address == 0),
    ("an indirect word behind a lock", |s| s.of(Part::Indirect, PROTECTION)),
    ("an indirect word outside the memory", |s| s.of(Part::Indirect, OUTSIDE)),
    ("an indirect word, AS not 0", |s| s.grouped(Part::Indirect)),
    ("a read behind a lock", |s| s.operand(Access::Read, PROTECTION)),
    ("a read outside the memory", |s| s.operand(Access::Read, OUTSIDE)),
    ("a write behind a lock or a protection", |s| s.operand(Access::Write, PROTECTION)),
    ("a write outside the memory", |s| s.operand(Access::Write, OUTSIDE)),
    ("an operand, AS not 0", |s| s.grouped(Part::Operand)),
    ("a later word read, behind another page register", |s| {
        s.later(Part::Operand) && s.refused.access == Access::Read
    }),
    ("a later word written, behind another page register", |s| {
        s.later(Part::Operand) && s.refused.access == Access::Write
    }),
    ("a later word of PSHM, behind another page register", |s| {
        s.later(Part::Operand) && s.opcode(0x9F)
    }),
    ("a later word at 0000", |s| s.later(Part::Operand) && s.refused.address == 0),
    ("an operand refused by two page registers", |s| !s.seen.enters() && s.also(Part::Operand)),
    ("a store of an entry, AS of the new SW not 0", |s| s.grouped(Part::Linkage)),
    ("a store of an entry, another AS in the old SW", |s| {
        s.refused.part == Part::Linkage && s.elsewhere()
    }),
    ("a store of an entry behind a protection", |s| s.of(Part::Linkage, PROTECTION)),
    ("a store of an entry outside the memory", |s| s.of(Part::Linkage, OUTSIDE)),
    ("a later store of an entry, behind another page register", |s| s.later(Part::Linkage)),
    ("stores of an entry refused by two page registers", |s| s.also(Part::Linkage)),
    ("a store of an entry after a read that another page register refuses", |s| {
        s.refused.part == Part::Linkage && s.also(Part::Vector)
    }),
    ("a store of an entry whose new SW is refused", |s| s.without_status_word()),
    ("a read of an entry, no store refused, another AS in the old SW", |s| {
        s.refused.part == Part::Vector && s.elsewhere()
    }),
    ("reads of an entry refused by two page registers, no store refused", |s| {
        s.refused.part == Part::Vector && s.also(Part::Vector)
    }),
    ("a store of BEX", |s| s.refused.part == Part::Linkage && s.opcode(BEX)),
    ("a read of BEX, no store refused", |s| s.refused.part == Part::Vector && s.opcode(BEX)),
    ("a refusal whose bit of FT was set already", |s| s.again()),
];

/// The moments of a status other than 0000 in a step without a refusal.
const GIVEN: [OfGiven; 12] = [
    ("CLIR clears the status", |seen, after| seen.commanded(0x2001).is_some() && after.mfs == 0),
    ("RMFS reads it", |seen, after| {
        seen.commanded(0xA00D).is_some_and(|first| after.r[register(first)] == after.mfs)
    }),
    ("RMFS reads its reserved bits", |seen, after| {
        seen.commanded(0xA00D).is_some() && after.mfs & RESERVED != 0
    }),
    ("RMFS with a key other than 0", |seen, _| {
        let rmfs = matches!(seen.next, Next::Instruction { command: Some(0xA00D), .. });
        rmfs && seen.commanded(0xA00D).is_none()
    }),
    ("it stays where RCFR clears FT", |seen, after| {
        seen.commanded(0xA00F).is_some() && seen.before.ft != 0 && after.mfs != 0
    }),
    ("it stays where RPI clears FT", |seen, after| {
        seen.commanded(0x2004).is_some() && seen.before.ft & !after.ft != 0 && after.mfs != 0
    }),
    ("it stays in SPI", |seen, after| seen.commanded(0x2005).is_some() && after.mfs != 0),
    ("it stays in an illegal command", |seen, after| faults(seen, after, 0x0400)),
    ("it stays in an illegal word", |seen, after| faults(seen, after, 0x0040)),
    ("it stays in a privileged instruction", |seen, after| faults(seen, after, 0x0020)),
    ("it stays in an entry", |seen, after| seen.enters() && after.mfs != 0),
    ("its reserved bits stay", |_, after| after.mfs & RESERVED != 0),
];

/// The number of the register that the second field of a first word names.
fn register(first: u16) -> usize {
    usize::from((first >> 4) & 0xF)
}

/// Whether a step sets this bit of FT anew and the status stays.
fn faults(seen: &Seen, after: &State, bit: u16) -> bool {
    after.ft & !seen.before.ft & bit != 0 && after.mfs == seen.before.mfs
}

/// How often each moment was reached.
pub struct FaultMoments {
    shown: [u64; SHOWN.len()],
    given: [u64; GIVEN.len()],
}

impl Default for FaultMoments {
    fn default() -> FaultMoments {
        FaultMoments { shown: [0; SHOWN.len()], given: [0; GIVEN.len()] }
    }
}

impl FaultMoments {
    /// Counts the moments of a step.
    pub fn count(&mut self, seen: &Seen, after: &State) {
        let before = seen.before.mfs;
        match seen.shown() {
            Some(refused) if refused.status() == after.mfs && before != after.mfs => {
                let shown = Shown { seen, refused };
                for (count, (_, is)) in self.shown.iter_mut().zip(&SHOWN) {
                    *count += u64::from(is(&shown));
                }
            }
            None if before != 0 => {
                for (count, (_, is)) in self.given.iter_mut().zip(&GIVEN) {
                    *count += u64::from(is(seen, after));
                }
            }
            _ => {}
        }
    }

    /// The moments by name, with their counts.
    pub fn counts(&self) -> Vec<(String, u64)> {
        let shown = SHOWN.iter().map(|(name, _)| name.to_string()).zip(self.shown);
        let given = GIVEN.iter().map(|(name, _)| name.to_string()).zip(self.given);
        shown.chain(given).collect()
    }
}
