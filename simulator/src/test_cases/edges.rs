//! Operands of several words and instructions of two words across the edge of a page, whose
//! neighbour refuses or not, under three keys; first words behind locks.

use super::case::{Case, CODE};
use super::table::{blocks, command, rows, Row, VALUES};

/// The page behind the edge of an operand: its register, and what it is.
const BEHIND: [(u16, &str); 3] =
    [(0x5003, "lock 5"), (0xF803, "write protected"), (0xF004, "outside")];
/// The page behind the edge of an instruction; its frame is not the next one to the first page's.
const FETCHED: [(u16, &str); 4] =
    [(0x5003, "lock 5"), (0xF803, "execute protected"), (0xF004, "outside"), (0xF003, "open")];
/// An operand that gives other results than the first of the table's values.
const OTHER: [u16; 5] = [0x2A01, 0x7F7F, 0x7777, 0x0F0F, 0x2468];
/// Keys: the one that matches lock 5, a wrong one, zero.
const KEYS: [u16; 3] = [5, 3, 0];

/// The rows with at least some words of operand, the first `before` of them in page 2.
fn across(before: u16, least: u16) -> impl Iterator<Item = Row> {
    rows(0x3000 - before).into_iter().filter(move |row| row.words >= least && !row.indexed())
}

/// A case with a key, the pages before the edge open to all keys.
fn keyed(case: Case, key: u16, title: &str) -> Case {
    case.key(key).page(1, 0xF001).page(2, 0xF002).also(&format!("{title}, key {key}"))
}

/// The case of a row without its operand, some words of which stand before the edge.
fn bare(row: &Row, before: u16) -> Case {
    let title = format!("{before} of {} words before an edge", row.words);
    row.bare(CODE, &VALUES[0]).also(&title)
}

/// The words behind the edge in a frame that is not the next one.
fn apart(row: &Row, before: u16, key: u16) -> Case {
    let operand = row.operand(&VALUES[0]);
    let (near, far) = operand.split_at(usize::from(before));
    let case = bare(row, before).memory(row.address, near).memory(0x1000, far);
    keyed(case, key, "next page lock 5 in another frame").page(3, 0x5001)
}

/// An operand with some words before the edge: the second page refuses or not, and the first.
fn split(row: &Row, before: u16, cases: &mut Vec<Case>) {
    let whole = bare(row, before).memory(row.address, &row.operand(&VALUES[0]));
    let case = |key, title: &str| keyed(whole.clone(), key, title);
    for (register, name) in BEHIND {
        for key in KEYS {
            cases.push(case(key, &format!("next page {name}")).page(3, register));
        }
    }
    cases.push(apart(row, before, 5));
    cases.push(apart(row, before, 0));
    cases.push(case(0, "first page outside, next open").page(2, 0xF009).page(3, 0xF003));
    cases.push(case(3, "first page lock 5, next open").page(2, 0x5002).page(3, 0xF003));
    cases.push(case(3, "first page outside, next lock 5").page(2, 0xF009).page(3, 0x5003));
    cases.push(case(3, "first page lock 5, next outside").page(2, 0x5002).page(3, 0xF009));
}

/// Operands of two to five words and blocks of up to sixteen registers.
fn operands(cases: &mut Vec<Case>) {
    for (before, least) in [(1, 2), (2, 3), (4, 5)] {
        for row in across(before, least) {
            split(&row, before, cases);
        }
    }
    for before in [1, 8, 15] {
        for row in blocks(0x3000 - before).iter().filter(|row| row.words > before) {
            split(row, before, cases);
        }
    }
}

/// An instruction of two words across an edge. The word that follows the first one in memory is
/// not its second: it would lead to another operand, with another result.
fn instruction(row: &Row, cases: &mut Vec<Case>) {
    let operand = row.operand(&VALUES[0]);
    for (register, name) in FETCHED {
        for key in KEYS {
            let title = format!("second word behind an edge, {name}");
            let case = keyed(row.bare(0x0FFF, &VALUES[0]), key, &title);
            let case = case.memory(0x1000, &[0x2A00]).memory(0x3000, &row.code[1..]);
            let case = case.memory(row.address, &operand).memory(0x2A00, &OTHER);
            cases.push(case.sw(0x4000 | (key << 4)).fetch_page(1, register));
        }
    }
}

/// Instructions of two words.
fn instructions(cases: &mut Vec<Case>) {
    for row in rows(0x2100).iter().chain([&command()]) {
        if row.code.len() == 2 && !row.indexed() {
            instruction(row, cases);
        }
    }
}

/// First words in a page with a lock.
fn first_words(cases: &mut Vec<Case>) {
    for lock in [0, 3, 5, 15] {
        for key in KEYS {
            let case = Case::new(format!("first word behind lock {lock}, key {key}")).key(key);
            let case = case.fetch_page(2, (lock << 12) | 2).ic(0x2100);
            cases.push(case.memory(0x2100, &[0x8213]));
        }
    }
}

/// The word that POPM skips in a page with lock 5, the others open.
fn skipped(cases: &mut Vec<Case>) {
    for (word, name, at, locked) in [
        (0x8FEF, "R14,R15", 0x2FFF, 3),
        (0x8FFF, "R15,R15", 0x3000, 3),
        (0x8FF0, "R15,R0", 0x2FFF, 2),
    ] {
        let title = format!("POPM {name}, the skipped word locked, key 3");
        let case = Case::on(title, &[word]).key(3).page(2, 0xF002).page(3, 0xF003);
        let case = case.page(locked, 0x5000 | locked).registers(15, &[at]);
        cases.push(case.memory(0x2FFF, &[0x1111, 0x2222, 0x3333]));
    }
}

/// MOV of three words, one a step, whose target or source goes across an edge.
fn moved(cases: &mut Vec<Case>) {
    for (name, to, from) in [("target", 0x2FFF, 0x0600), ("source", 0x0600, 0x2FFF)] {
        for (register, what) in BEHIND {
            for key in KEYS {
                let case = Case::on(format!("MOV, {name} across an edge"), &[0x9348]).steps(3);
                let case = keyed(case, key, &format!("next page {what}")).page(3, register);
                let case = case.registers(4, &[to, 3]).registers(8, &[from]);
                cases.push(case.memory(from, &[0x1111, 0x2222, 0x3333]));
            }
        }
    }
}

/// All cases of this group.
pub(crate) fn cases(cases: &mut Vec<Case>) {
    operands(cases);
    moved(cases);
    instructions(cases);
    first_words(cases);
    skipped(cases);
    for row in rows(0x2100).iter().filter(|row| row.words > 0 && !row.indexed()) {
        let case = keyed(row.case(&VALUES[0]), 0, "write protected and outside");
        cases.push(case.page(2, 0x0804));
    }
}
