//! Cases whose results were worked out by hand.

use crate::test_cases::case::Case;

/// A case of this file.
fn worked(title: &str) -> Case {
    Case::new(format!("status, worked: {title}"))
}

/// L R1,C123 in address state 5, which is outside the memory, and a word or two after it.
fn after_a_load(title: &str, then: &[u16]) -> Case {
    let title = format!("a load in state 5, outside{title}");
    worked(&title).sw(0x0005).memory(0, &[0x8010, 0xC123]).memory(2, then)
}

/// One refusal of an instruction.
fn instructions(cases: &mut Vec<Case>) {
    let case = worked("a fetch in state 5, execute protected").sw(0x0005);
    cases.push(case.group_fetch_page(5, 3, 0x0803).ic(0x3ABC));
    cases.push(after_a_load("", &[]));
    let case = worked("second word behind an edge, outside").code(0x0FFF, &[0x8010]);
    cases.push(case.fetch_page(1, 0x0004));
    let case = worked("DST across an edge, write protected").memory(0, &[0x9610, 0x0FFF]);
    cases.push(case.registers(1, &[0x1111, 0x2222]).page(1, 0x0801));
    let case = worked("DST across the end of the memory").memory(0, &[0x9610, 0x3FFF]);
    cases.push(case.registers(1, &[0x1111, 0x2222]));
    let case = worked("STM from outside to write protected").memory(0, &[0x9910, 0x4FFF]);
    cases.push(case.registers(0, &[0x1111, 0x2222]).page(5, 0x0805));
    cases.push(
        worked("JCI that never jumps, its indirect word outside").memory(0, &[0x7100, 0x4000]),
    );
}

/// What follows a refused load.
fn following(cases: &mut Vec<Case>) {
    cases.push(after_a_load(", then an illegal word", &[0xFE00]).steps(2));
    cases.push(after_a_load(", then RCFR", &[0x4820, 0xA00F]).steps(2));
    cases.push(after_a_load(", then RPI 1", &[0x4820, 0x2004]).registers(2, &[1]).steps(2));
    cases.push(after_a_load(", then CLIR", &[0x4800, 0x2001]).steps(2));
    cases.push(after_a_load(", then RMFS", &[0x4850, 0xA00D]).steps(2));
    let case = after_a_load(", then a jump to a protected page", &[0x7070, 0x3ABC]);
    cases.push(case.group_fetch_page(5, 3, 0x0803).steps(3));
}

/// Interrupt 4 with its pointers; the new SW has address state 3.
fn entry(title: &str, linkage: u16, service: u16) -> Case {
    let case = worked(title).pi(0x0800).mk(0x0800).marks(0x000D);
    case.memory(0x0028, &[linkage, service]).memory(0x0200, &[0x0000, 0x0003, 0x0300])
}

/// Refused words of an entry.
fn entries(cases: &mut Vec<Case>) {
    cases.push(entry("an entry, stores outside", 0x5000, 0x0200));
    cases.push(entry("an entry, new state outside", 0x0100, 0x6000));
    cases.push(entry("an entry, new state and stores outside", 0x5000, 0x6000));
    cases.push(entry("an entry, new SW and IC outside", 0x0100, 0x3FFF));
    cases.push(entry("an entry, new MK outside, SW and IC from 0000", 0x0100, 0xFFFF));
    let case = entry("an entry, the second store write protected", 0x0FFF, 0x0200);
    cases.push(case.group_page(3, 1, 0x0801));
}

/// All cases of this file.
pub(super) fn cases(cases: &mut Vec<Case>) {
    instructions(cases);
    following(cases);
    entries(cases);
}
