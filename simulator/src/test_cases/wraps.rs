//! Wrap-around: addresses from FFFF to 0000, registers from R15 to R0, the stack, IC.

use super::case::{Case, CODE};
use super::table::{blocks, carried, command, rows, with_index, Row, INDEX, VALUES};

/// The operand across the end of the addresses; page 15 is frame 3.
fn operand(row: &Row, before: u16) -> Case {
    let words = row.operand(&VALUES[0]);
    let (end, start) = words.split_at(words.len().min(usize::from(before)));
    let case = row.bare(CODE, &VALUES[0]).page(15, 0x0003);
    let title = format!("operand from FFFF to 0000, {before} of {} words before", row.words);
    case.memory(0x4000 - before, end).memory(0, start).also(&title)
}

/// The two words of an instruction at FFFF and 0000.
fn fetched(row: &Row) -> Case {
    let case = row.case(&VALUES[0]).fetch_page(15, 0x0003).memory(0x3FFF, &row.code[..1]);
    let case = case.memory(0, &row.code[1..]).ic(0xFFFF);
    case.also("fetched from FFFF and 0000")
}

/// An instruction with other register fields.
fn fielded(row: &Row, a: u16, b: Option<u16>) -> Case {
    let mut first = (row.code[0] & 0xFF0F) | (a << 4);
    if let Some(b) = b {
        first = (first & 0xFFF0) | b;
    }
    let case = row.case(&VALUES[0]).memory(CODE, &[first]);
    let case = case.registers(a, &VALUES[0].0);
    match b {
        Some(b) => case.registers(b, &VALUES[0].1[..3]).also(&format!("fields {a} and {b}")),
        None => case.also(&format!("field {a}")),
    }
}

/// Registers that wrap, overlap or are the same.
fn registers(cases: &mut Vec<Case>) {
    for row in rows(0x2100) {
        if row.name.ends_with(" D") && !row.name.starts_with("SJS") {
            cases.push(fielded(&row, 15, None));
            if row.words >= 3 {
                cases.push(fielded(&row, 14, None));
            }
        }
        if row.words == 0 && row.code.len() == 1 && row.code[0] < 0xFF00 {
            for (a, b) in [(15, 8), (8, 15), (15, 15), (4, 5), (5, 4), (6, 4), (4, 6), (0, 15)] {
                cases.push(fielded(&row, a, Some(b)));
            }
        }
    }
}

/// The index register among the registers that the first field, or a base mode, works on.
fn indices(cases: &mut Vec<Case>) {
    for row in with_index(0x2100) {
        let (case, first) = (row.case(&VALUES[0]), row.code[0]);
        if first < 0x4400 {
            for x in [1, 2] {
                let case = case.clone().memory(CODE, &[(first & 0xFFF0) | x]);
                cases.push(case.registers(x, &[INDEX]).also(&format!("indexed with R{x}")));
            }
            continue;
        }
        for a in 10 - row.words.clamp(1, 3)..10 {
            let case = case.clone().memory(CODE, &[(first & 0xFF0F) | (a << 4)]);
            let case = case.registers(a, &VALUES[0].0).registers(9, &[INDEX]);
            cases.push(case.also(&format!("fields {a} and 9")));
        }
    }
}

/// The instruction counter and its branches at both ends of the addresses.
fn counters(cases: &mut Vec<Case>) {
    for (word, name) in [(0xFF00, "NOP"), (0x8243, "LISP"), (0x7405, "BR"), (0x4400, "illegal")] {
        let case = Case::new(format!("{name} at FFFF")).memory(0x3FFF, &[word]);
        cases.push(case.ic(0xFFFF).fetch_page(15, 0x0003));
    }
    for (displacement, name) in [(0x80, "back 128"), (0xFE, "back 2"), (0x7F, "on 127")] {
        for at in [0x0000, 0x0001, 0xFFFF, 0xFF90] {
            let case = Case::new(format!("BR {name} from {at:04X}")).ic(at);
            let case = case.memory(at & 0x3FFF, &[0x7400 | displacement]);
            cases.push(case.fetch_page(15, 0x0003));
        }
    }
    let case = Case::on("LI with an index past FFFF", &[0x8419, 0xFFF0]).registers(9, &[0x0015]);
    cases.push(case.memory(0x0005, &[0x2100]).memory(0x2100, &[0x4444]));
    let case = Case::on("LI through the word at FFFF", &[0x8410, 0xFFFF]).page(15, 0x0003);
    cases.push(case.memory(0x3FFF, &[0x2100]).memory(0x2100, &[0x4444]));
    let case = Case::on("SJS with an index past FFFF", &[0x7E49, 0xFFF0]);
    cases.push(case.registers(9, &[0x0315]).registers(4, &[0x0800]));
    let case = Case::on("LIM with an index past FFFF", &[0x8549, 0xFFF0]);
    cases.push(case.registers(9, &[0x0015]));
    let case = Case::on("JS at FFFF", &[]).memory(0x3FFF, &[0x7240]).memory(0, &[0x0300]);
    cases.push(case.ic(0xFFFF).fetch_page(15, 0x0003));
}

/// MOV to and from addresses across FFFF.
fn moves(cases: &mut Vec<Case>) {
    let case = Case::on("MOV of three words past FFFF", &[0x9348]).page(15, 0x0003).steps(4);
    let case = case.registers(4, &[0xFFFE, 3]).registers(8, &[0x0300]);
    cases.push(case.memory(0x0300, &[0x1111, 0x2222, 0x3333]));
    let case = Case::on("MOV from past FFFF", &[0x93FE]).page(15, 0x0003).steps(4);
    let case = case.registers(14, &[0xFFFF, 0x0300, 3]).memory(0x3FFF, &[0x1111, 0x2222]);
    cases.push(case.memory(0, &[0x5555, 0x6666]));
}

/// Operands across the end of the addresses: one word to five, and blocks of up to sixteen.
fn operands(cases: &mut Vec<Case>) {
    for (before, least) in [(1, 1), (2, 3), (4, 5)] {
        for row in rows(0x0000_u16.wrapping_sub(before)) {
            if row.words >= least && !row.indexed() {
                cases.push(operand(&row, before));
            }
        }
    }
    for before in [1, 8, 15] {
        for row in blocks(0x0000_u16.wrapping_sub(before)).iter().filter(|row| row.words > before) {
            cases.push(operand(row, before));
        }
    }
}

/// All cases of this group.
pub(crate) fn cases(cases: &mut Vec<Case>) {
    operands(cases);
    for row in carried() {
        cases.push(row.case(&VALUES[1]).also("sum past FFFF"));
    }
    for row in rows(0x2100).iter().chain([&command()]) {
        if row.code.len() == 2 && !row.indexed() {
            cases.push(fetched(row));
        }
    }
    registers(cases);
    indices(cases);
    counters(cases);
    moves(cases);
}
