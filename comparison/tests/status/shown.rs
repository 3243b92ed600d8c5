//! Mistakes in what is shown of a refused access of an instruction.

use crate::common::{agrees, caught, caught_in_steps, Mistake};
use comparison::{Access, Part, Refused, Seen, Stepped, Watcher};
use simulator::State;

/// The reserved bits of the status, the bit of the instruction set, and a field of four bits.
pub const RESERVED: u16 = 0x0FE0;
const IOI: u16 = 0x0010;
const FIELD: u16 = 0x000F;

/// Leaves the status as it was before the step where a refusal of this kind is shown.
pub fn not_shown(seen: &Seen, after: &mut State, kind: fn(&Refused) -> bool) {
    if seen.shown().is_some_and(kind) {
        after.mfs = seen.before.mfs;
    }
}

/// Shows the refusal of an instruction otherwise.
fn otherwise(seen: &Seen, after: &mut State, status: impl Fn(&Refused) -> u16) {
    if !seen.enters() {
        if let Some(refused) = seen.shown() {
            after.mfs = status(refused);
        }
    }
}

/// The mistakes.
const MISTAKES: [(&str, Mistake); 15] = [
    ("the last refused access of an instruction in place of the first", |seen, after, _| {
        if let (false, Some(last)) = (seen.enters(), seen.refusals.last()) {
            after.mfs = last.status();
        }
    }),
    ("IOI is exchanged", |seen, after, _| otherwise(seen, after, |r| r.status() ^ IOI)),
    ("IOI is not set", |seen, after, _| otherwise(seen, after, |r| r.status() & !IOI)),
    ("an indirect word is of the instruction set", |seen, after, _| {
        otherwise(seen, after, |r| r.status() | if r.part == Part::Indirect { IOI } else { 0 });
    }),
    ("LPA and AS are exchanged", |seen, after, _| {
        otherwise(seen, after, |r| r.group << 12 | r.status() & IOI | r.address >> 12);
    }),
    ("AS is left out", |seen, after, _| otherwise(seen, after, |r| r.status() & !FIELD)),
    ("PS in place of AS", |seen, after, _| {
        let key = seen.before.sw >> 4;
        otherwise(seen, after, |r| r.status_at(r.address, key));
    }),
    ("LPA of IC for the second word of an instruction", |seen, after, _| {
        otherwise(seen, after, |r| {
            let address = if r.part == Part::Code { r.from } else { r.address };
            r.status_at(address, r.group)
        });
    }),
    ("LPA of the first word for the later ones of an operand", |seen, after, _| {
        otherwise(seen, after, |r| {
            let address = if r.part == Part::Operand { r.from } else { r.address };
            r.status_at(address, r.group)
        });
    }),
    ("a refusal keeps the reserved bits", |seen, after, _| {
        otherwise(seen, after, |r| r.status() | seen.before.mfs & RESERVED);
    }),
    ("a refused fetch is not shown", |seen, after, _| {
        not_shown(seen, after, |refused| refused.access == Access::Fetch);
    }),
    ("a refused indirect word is not shown", |seen, after, _| {
        not_shown(seen, after, |refused| refused.part == Part::Indirect);
    }),
    ("the memory's end is not shown", |seen, after, _| {
        not_shown(seen, after, |refused| refused.bit == 0x0080);
    }),
    ("locks and protections are not shown", |seen, after, _| {
        not_shown(seen, after, |refused| refused.bit == 0x8000);
    }),
    ("the status stays where the bit of FT was set already", |seen, after, _| {
        if seen.shown().is_some_and(|refused| seen.before.ft & refused.bit != 0) {
            after.mfs = seen.before.mfs;
        }
    }),
];

#[test]
fn mistakes_in_what_is_shown() {
    caught_in_steps(&MISTAKES);
}

/// Showing a refusal anew is no mistake where it is the right one.
#[test]
fn nothing_is_reported_of_the_right_status() {
    agrees(|seen, after, _| match seen.shown() {
        Some(refused) => after.mfs = refused.status(),
        None if seen.commanded(0x2001).is_none() => after.mfs = seen.before.mfs,
        None => after.mfs = 0,
    });
}

/// A simulator that shows a refusal one step late.
struct Late(Option<u16>);

impl Watcher for Late {
    fn stepped(&mut self, seen: &Seen, after: &mut State, _: &mut [u16]) {
        let shown = seen.shown().map(|refused| refused.status());
        if shown.is_some() {
            after.mfs = seen.before.mfs;
        }
        if let Some(late) = std::mem::replace(&mut self.0, shown) {
            after.mfs = late;
        }
    }
}

#[test]
fn a_status_one_step_late() {
    caught("the status is one step late", &mut Stepped { watcher: Late(None) });
}
