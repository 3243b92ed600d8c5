//! Known instructions, the standard's tables I to IV and VII, and its worked examples.

use super::case::{hex, Case};

/// Table I.
const SINGLE: [u16; 12] = [
    0x7FFF, 0x4000, 0x1000, 0x0002, 0x0001, 0x0000, 0xFFFF, 0xFFFE, 0xF000, 0xC000, 0x8001, 0x8000,
];

/// Table II.
const DOUBLE: [[u16; 2]; 10] = [
    [0x7FFF, 0xFFFF],
    [0x4000, 0x0000],
    [0x0000, 0x0002],
    [0x0000, 0x0001],
    [0x0000, 0x0000],
    [0xFFFF, 0xFFFF],
    [0xFFFF, 0xFFFE],
    [0xC000, 0x0000],
    [0x8000, 0x0001],
    [0x8000, 0x0000],
];

/// Table III.
const FLOAT: [[u16; 2]; 11] = [
    [0x7FFF, 0xFF7F],
    [0x4000, 0x007F],
    [0x5000, 0x0004],
    [0x4000, 0x0001],
    [0x4000, 0x0000],
    [0x4000, 0x00FF],
    [0x4000, 0x0080],
    [0x0000, 0x0000],
    [0x8000, 0x0000],
    [0xBFFF, 0xFF80],
    [0x9FFF, 0xFF04],
];

/// Table IV.
const EXTENDED: [[u16; 3]; 10] = [
    [0x4000, 0x007F, 0],
    [0x4000, 0x0000, 0],
    [0x4000, 0x00FF, 0],
    [0x4000, 0x0080, 0],
    [0x8000, 0x007F, 0],
    [0x8000, 0x0000, 0],
    [0x8000, 0x00FF, 0],
    [0x8000, 0x0080, 0],
    [0x0000, 0x0000, 0],
    [0xA000, 0x00FF, 0],
];

/// Instructions on R4 and up with the operand in R8 and up.
type Uses = &'static [(u16, &'static str)];
const ON_SINGLE: Uses =
    &[(0x8148, "LR"), (0xE948, "FLT"), (0xB448, "NEG"), (0xA448, "ABS"), (0xC548, "MR")];
const ON_DOUBLE: Uses = &[(0x8748, "DLR"), (0xEB48, "EFLT"), (0xB548, "DNEG"), (0xA548, "DABS")];
const ON_FLOAT: Uses =
    &[(0x8748, "DLR"), (0xE848, "FIX"), (0xBC48, "FNEG"), (0xAC48, "FABS"), (0xF948, "FCR")];
const ON_EXTENDED: Uses =
    &[(0xEA48, "EFIX"), (0xFB48, "EFCR"), (0xAB48, "EFAR"), (0xBB48, "EFSR"), (0xCB48, "EFMR")];

/// The rows of a table, each under some instructions; the accumulator holds 1 or one half.
fn table(name: &str, rows: &[&[u16]], uses: Uses, cases: &mut Vec<Case>) {
    for (number, row) in (1..).zip(rows) {
        for (word, mnemonic) in uses {
            let case = Case::on(format!("table {name} row {number} {mnemonic}"), &[*word]);
            cases.push(case.registers(4, &[0x4000, 1, 0]).registers(8, row));
        }
        let load = if row.len() == 1 { 0x8040 } else { 0x8640 };
        let load = if row.len() == 3 { 0x8A40 } else { load };
        let case = Case::on(format!("table {name} row {number} loaded"), &[load, 0x2100]);
        cases.push(case.memory(0x2100, row));
    }
}

/// A table's rows as slices.
fn slices<const N: usize>(rows: &[[u16; N]]) -> Vec<&[u16]> {
    rows.iter().map(|row| &row[..]).collect()
}

/// The known instructions on locks and on the end of the memory.
fn known(cases: &mut Vec<Case>) {
    for key in [3, 2] {
        let case = Case::on(format!("known: lock 3, key {key}"), &[0x8010, 0x2100]).key(key);
        cases.push(case.page(2, 0x3002).memory(0x2100, &[0x1234]));
    }
    for frame in [1, 2] {
        let title = format!("known: memory of 8,192 words, PPA {frame}");
        let case = Case::on(title, &[0x8010, 0x3000]).lent(0, 8192).page(3, frame);
        cases.push(case.memory(0x1000, &[0x1234]));
    }
}

/// Table VII: locks and keys.
fn locks(cases: &mut Vec<Case>) {
    for lock in [0, 1, 5, 8, 14, 15] {
        for key in [0, 1, 5, 8, 14, 15] {
            let title = format!("table VII lock {lock} key {key}");
            let case = Case::on(title, &[0x8010, 0x2100]).key(key);
            cases.push(case.page(2, (lock << 12) | 2).memory(0x2100, &[0x1234]));
        }
    }
}

/// The examples on the pages of section 5.
fn examples(cases: &mut Vec<Case>) {
    for opcode in [0x60, 0x61, 0x62, 0x63, 0x65, 0x66, 0x67, 0x68] {
        for (count, words) in [(4, [0x9ABC, 0xDEF1]), (4, [0x1ABC, 0xDEF1]), (16, [0x8001, 0x7FFE])]
        {
            let word = (opcode << 8) | ((count - 1) << 4) | 5;
            let title = format!("example of a shift {opcode:02X} of {} by {count}", hex(&words));
            cases.push(Case::on(title, &[word]).registers(5, &words));
        }
    }
    let registers: Vec<u16> = (0..16).map(|number| 0x0A00 + number).collect();
    for (word, title) in [(0x9F35, "example PSHM R3,R5"), (0x9FE2, "example PSHM R14,R2")] {
        let case = Case::on(title, &[word, word ^ 0x1000]).registers(0, &registers);
        cases.push(case.clone().registers(15, &[0x0800]));
        cases.push(case.registers(15, &[0x0800]).steps(2).also("and POPM"));
    }
    let case = Case::on("5.72: 8000 times 8000", &[0xC545]);
    cases.push(case.registers(4, &[0x8000, 0x8000]));
    let case = Case::on("5.84: NAND of a register with itself is NOT", &[0xE744]);
    cases.push(case.registers(4, &[0x5A0F]));
}

/// All cases of this group.
pub(crate) fn cases(cases: &mut Vec<Case>) {
    known(cases);
    table("I", &slices(&SINGLE.map(|word| [word])), ON_SINGLE, cases);
    table("II", &slices(&DOUBLE), ON_DOUBLE, cases);
    table("III", &slices(&FLOAT), ON_FLOAT, cases);
    table("IV", &slices(&EXTENDED), ON_EXTENDED, cases);
    locks(cases);
    examples(cases);
}
