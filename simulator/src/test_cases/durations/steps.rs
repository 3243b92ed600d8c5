//! Which duration a step takes: that of the opcode of the first word that it fetched, whatever
//! comes of it, or the last one.

use crate::test_cases::case::Case;
use crate::test_cases::entries::{call, pending, REFUSALS};
use crate::test_cases::table::{command, rows, VALUES};

/// The number of the last duration, that of a step that fetches no first word.
const LAST: u16 = 256;

/// A duration of its own for an opcode, another for a step without a first word, a third for the
/// rest.
fn own(case: Case, opcode: u16) -> Case {
    let case = case.durations(7).duration(opcode, 1_034 + 3 * opcode).duration(LAST, 5_011);
    case.remainders(60, 600)
}

/// Every opcode, legal or not: R4, R8 and an address where there are fields for them.
fn opcodes(cases: &mut Vec<Case>) {
    for opcode in 0..=0xFF {
        let word = (opcode << 8) | 0x48;
        let case = Case::on(format!("the duration of {word:04X}"), &[word, 0x2000]);
        let case = case.registers(4, &[0x2200, 1]).registers(15, &[0x2300]);
        cases.push(own(case, opcode));
    }
    for word in [0x4A00, 0x4A0C, 0x4A48, 0xFF00, 0xFF01, 0xFFFE, 0xFFFF] {
        let case = Case::on(format!("the duration of {word:04X}, key 3"), &[word, 0x2000]);
        cases.push(own(case, word >> 8).key(3));
    }
}

/// Second words, indirect words and operands that are refused.
fn refused(cases: &mut Vec<Case>) {
    for row in rows(0x2100).iter().chain([&command()]).filter(|row| !row.indexed()) {
        let opcode = row.code[0] >> 8;
        if row.code.len() == 2 {
            let case = row.bare(0x0FFF, &VALUES[0]).fetch_page(1, 0x0801);
            cases.push(own(case, opcode).also("its duration, second fetch refused"));
        }
        if row.pointer.is_some() {
            let case = row.case(&VALUES[0]).page(1, 0x0004);
            cases.push(own(case, opcode).also("its duration, pointer refused"));
        }
        if row.words > 0 {
            let case = row.case(&VALUES[0]).page(2, 0x0804);
            cases.push(own(case, opcode).also("its duration, operand refused"));
        }
    }
}

/// Privileged instructions with another key, and first words that cannot be fetched.
fn fetches(cases: &mut Vec<Case>) {
    for word in [0x4840, 0x7C00, 0x7D00] {
        let case = Case::on(format!("the duration of {word:04X}, privileged"), &[word, 0x2000]);
        cases.push(own(case, word >> 8).key(3));
    }
    let registers = [(0x0800, "protected"), (0x0004, "outside"), (0x5000, "locked")];
    for (register, name) in registers {
        for word in [0xFF00, 0x4840, 0x7700, 0xFE00, 0x0000] {
            let title = format!("first fetch {name} from {word:04X}, the last duration");
            let case = Case::on(title, &[word, 0x2001]).key(3).fetch_page(0, register);
            cases.push(own(case, word >> 8));
        }
    }
    let case = Case::new("first word at the end of the addresses").ic(0xFFFF);
    cases.push(own(case.fetch_page(15, 0x0003).memory(0x3FFF, &[0x8243]), 0x82));
    let case = Case::on("first word in another frame of address state 2", &[0xFF00]).sw(2);
    cases.push(own(case.fetch_page(32, 1).memory(0x1100, &[0x8243]), 0x82));
}

/// Entries: the last duration, also with refused words and where a timer passes its end in them.
fn entries(cases: &mut Vec<Case>) {
    let enabled = |case: Case| own(case, 0xFF).mk(0xFFFF).marks(0x000D);
    for number in 0..16 {
        cases.push(enabled(pending(number, "by the last duration")));
        let case = enabled(pending(number, "as both timers pass"));
        cases.push(case.timers(0xFFFF, 0xFFFE));
    }
    for number in [1, 7] {
        for (title, change) in REFUSALS {
            let case = enabled(pending(number, title).also("the last duration"));
            cases.push(change(case.sw(0x2035)));
        }
    }
    for steps in [1, 2] {
        let case = enabled(pending(9, "held, by durations").also(&format!("{steps} steps")));
        cases.push(case.marks(0x000F).steps(steps));
    }
    cases.push(enabled(pending(9, "masked, by durations")).mk(0));
}

/// BEX: the duration of its opcode, and not the last one.
fn executive(cases: &mut Vec<Case>) {
    for entry in 0..16 {
        cases.push(own(call(entry, "by its opcode's duration"), 0x77));
    }
    for (title, change) in REFUSALS {
        cases.push(own(change(call(7, title).also("its duration")), 0x77));
    }
    cases.push(own(call(3, "first fetch refused, the last duration"), 0x77).fetch_page(0, 0x0800));
    let case = own(call(3, "after an entry of interrupt 5"), 0x77).pi(0x0400);
    cases.push(case.memory(0x1202, &[0x0100]).group_fetch(3).steps(2));
    let case = own(call(3, "as both timers pass"), 0x77);
    cases.push(case.timers(0xFFFF, 0xFFFF));
}

/// MOV: its duration for every word, and for none.
fn moves(cases: &mut Vec<Case>) {
    for count in [0, 1, 2, 3, 16] {
        for steps in [1, 2, 3, 16, 17] {
            let title = format!("MOV of {count} words, its duration, {steps} steps");
            let case = own(Case::on(title, &[0x9348]), 0x93).registers(4, &[0x0400, count]);
            cases.push(case.registers(8, &[0x0300]).steps(steps));
        }
    }
    for (page, name) in [(2, "source"), (3, "target")] {
        let case = Case::on(format!("MOV, its duration, {name} refused"), &[0x9348]);
        let case = case.page(page, 0x0804).registers(4, &[0x3100, 2]).registers(8, &[0x2100]);
        cases.push(own(case, 0x93));
    }
}

/// Instructions that change the word that they were: the fetched one counts.
fn overwritten(cases: &mut Vec<Case>) {
    let title = |name: &str| format!("{name} over itself, the duration of the old word");
    let case = |name: &str, code: &[u16]| Case::on(title(name), code).registers(4, &[0xFF00]);
    cases.push(own(case("ST", &[0x9040, 0x0100]), 0x90));
    cases.push(own(case("INCM", &[0xA3F0, 0x0100]), 0xA3));
    cases.push(own(case("STUB", &[0x9B40, 0x0100]), 0x9B));
    cases.push(own(case("PSHM", &[0x9F44]).registers(15, &[0x0101]), 0x9F));
    let case = case("MOV", &[0x9348]).memory(0x0300, &[0x8243]);
    let case = case.registers(4, &[0x0100, 2]).registers(8, &[0x0300]);
    cases.push(own(case.clone(), 0x93));
    cases.push(own(case, 0x93).also("and the new one").steps(2));
    let case = call(5, "over itself, the duration of the old word").memory(42, &[0x0100]);
    cases.push(own(case, 0x77));
}

/// All cases of this file.
pub(super) fn cases(cases: &mut Vec<Case>) {
    opcodes(cases);
    refused(cases);
    fetches(cases);
    entries(cases);
    executive(cases);
    moves(cases);
    overwritten(cases);
}
