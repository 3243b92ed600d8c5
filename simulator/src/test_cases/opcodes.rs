//! Every opcode in every mode: normal, and with each access refused.

use super::case::Case;
use super::table::{other_bases, rows, Row, VALUES};

/// Where the operands stand: page 2.
const OPERAND: u16 = 0x2100;
/// Page registers: frame 2 with lock 5, with write protection, and a frame outside the memory.
const LOCKED: u16 = 0x5002;
const PROTECTED: u16 = 0xF802;
const OUTSIDE: u16 = 0xF004;

/// The normal cases of an instruction: two sets of numbers with key 0, one with a matching key;
/// where only the address is formed in another way than in an earlier row, one set.
fn normal(row: &Row, cases: &mut Vec<Case>) {
    cases.push(row.case(&VALUES[0]).also("positive numbers"));
    if !row.indexed() {
        cases.push(row.case(&VALUES[1]).also("numbers of both signs"));
    }
    if row.words > 0 {
        let case = row.case(&VALUES[0]).key(5).page(1, 0x5001).page(2, LOCKED);
        cases.push(case.also("key 5 on lock 5"));
    }
}

/// The fetches refused: the first word's, and the second word's from behind a page edge.
fn fetches(row: &Row, cases: &mut Vec<Case>) {
    let case = row.case(&VALUES[0]).fetch_page(0, 0x0800);
    cases.push(case.also("first fetch execute protected"));
    if row.code.len() == 2 && !row.indexed() {
        let case = row.bare(0x0FFF, &VALUES[0]).fetch_page(1, 0x0801);
        cases.push(case.also("second fetch execute protected"));
    }
}

/// The operand refused, and the indirect word before it.
fn operands(row: &Row, cases: &mut Vec<Case>) {
    let refused = [(2, LOCKED), (2, PROTECTED), (2, OUTSIDE), (1, 0x5001), (1, OUTSIDE)];
    let names = ["locked", "write protected", "outside", "pointer locked", "pointer outside"];
    let count = match (row.words, row.pointer.is_some()) {
        (0, false) => 0,
        (_, false) if row.indexed() => 1,
        (_, false) => 3,
        (_, true) => 5,
    };
    for ((page, register), name) in refused.into_iter().zip(names).take(count) {
        let case = row.case(&VALUES[1]).key(3).page(1, 0xF001).page(page, register);
        cases.push(case.also(name).also("key 3"));
    }
}

/// The accesses of LST and LSTI, which need key 0: no lock refuses it, only the end of the memory.
fn privileged(cases: &mut Vec<Case>) {
    for row in rows(OPERAND).iter().filter(|row| row.name.starts_with("LST")) {
        cases.push(row.case(&VALUES[0]).page(2, OUTSIDE).also("outside, key 0"));
        if row.pointer.is_some() {
            cases.push(row.case(&VALUES[0]).page(1, OUTSIDE).also("pointer outside, key 0"));
        }
    }
}

/// First words that are no instruction.
fn illegal(cases: &mut Vec<Case>) {
    let opcodes = [0x44, 0x45, 0x46, 0x47, 0x49, 0x4B, 0x4C, 0x4D, 0x4E, 0x4F, 0x5B, 0x5D, 0x5F]
        .into_iter()
        .chain([0x64, 0x69, 0x95, 0xAD, 0xAE, 0xAF, 0xBD, 0xBE, 0xBF, 0xCC, 0xCD, 0xCE, 0xCF])
        .chain([0xDC, 0xDD, 0xDE, 0xDF, 0xEE, 0xEF, 0xF5, 0xFC, 0xFD, 0xFE]);
    let words = opcodes.map(|opcode: u16| (opcode << 8) | 0x48);
    let rest = [0x4A00, 0x4A0C, 0x4A0D, 0x4A0E, 0x4A0F, 0xFF01, 0xFFFE, 0xFF0F, 0xFFF0];
    for word in words.chain(rest) {
        let title = format!("illegal {word:04X}");
        cases.push(Case::on(title.as_str(), &[word, 0x2100]).registers(4, &[1, 2]));
        cases.push(Case::on(title, &[word, 0x2100]).registers(4, &[1, 2]).key(3).also("key 3"));
    }
}

/// All cases of this group.
pub(crate) fn cases(cases: &mut Vec<Case>) {
    for row in rows(OPERAND) {
        normal(&row, cases);
        fetches(&row, cases);
        operands(&row, cases);
    }
    for row in &other_bases(OPERAND) {
        cases.push(row.case(&VALUES[1]));
        cases.push(row.case(&VALUES[1]).key(3).page(2, LOCKED).also("locked, key 3"));
    }
    privileged(cases);
    illegal(cases);
}
