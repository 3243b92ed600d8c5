//! MOV (5.47): one word a step, its registers, its refusals, and interrupts in between.

use crate::bench::{on, refused};

#[test]
fn moves_word_by_word() {
    let start = on(&[0x9314]).with(1, &[0x0300, 3, 0, 0x0200]).memory(0x0200, &[7, 8, 9]);
    let first = start.sw(0x4000).go().has(1, &[0x0301, 2, 0, 0x0201]).ic(0x0100);
    let second = first.holds(0x0300, &[7, 0]).go().has(1, &[0x0302, 1, 0, 0x0202]).ic(0x0100);
    let third = second.holds(0x0300, &[7, 8, 0]).go().has(1, &[0x0303, 0, 0, 0x0203]).ic(0x0101);
    third.holds(0x0300, &[7, 8, 9, 0]).fine(0b0100, 0);
}

#[test]
fn count_zero_moves_nothing() {
    let bench = on(&[0x9314]).with(1, &[0x0300, 0, 0, 0x0200]).memory(0x0200, &[7]).go();
    bench.has(1, &[0x0300, 0, 0, 0x0200]).holds(0x0300, &[0]).ic(0x0101).ft(0);
    // Nothing is checked either.
    let closed = on(&[0x9314]).with(1, &[0x2000, 0, 0, 0x3000]).operand_page(2, 0x00FF);
    closed.operand_page(3, 0x00FF).go().ic(0x0101).ft(0);
}

#[test]
fn count_is_unsigned() {
    let bench = on(&[0x9314]).with(1, &[0x0300, 0xFFFF, 0, 0x0200]).memory(0x0200, &[7]).go();
    bench.has(1, &[0x0301, 0xFFFE, 0, 0x0201]).holds(0x0300, &[7]).ic(0x0100);
}

#[test]
fn one_register_for_both_addresses() {
    let bench = on(&[0x9311]).with(1, &[0x0200, 2]).memory(0x0200, &[7, 8, 9]).go();
    bench.has(1, &[0x0202, 1]).ic(0x0100).go().has(1, &[0x0204, 0]).ic(0x0101);
}

#[test]
fn count_register_as_source() {
    let bench = on(&[0x9312]).with(1, &[0x0300, 0x0200]).memory(0x0200, &[7]).go();
    let bench = bench.has(1, &[0x0301, 0x0200]).holds(0x0300, &[7]).ic(0x0100).steps(5);
    bench.has(1, &[0x0306, 0x0200]).holds(0x0300, &[7, 7, 7, 7, 7, 7, 0]).ic(0x0100);
}

#[test]
fn count_register_wraps() {
    let bench = on(&[0x93F3]).with(15, &[0x0300, 1]).with(3, &[0x0200]).memory(0x0200, &[7]).go();
    bench.has(15, &[0x0301, 0]).has(3, &[0x0201]).holds(0x0300, &[7]).ic(0x0101);
}

#[test]
fn addresses_wrap() {
    let bench = on(&[0x9314]).with(1, &[0xFFFF, 2, 0, 0xFFFE]).memory(0xFFFE, &[7, 8]).steps(2);
    bench.has(1, &[1, 0, 0, 0]).holds(0xFFFF, &[7]).holds(0, &[7]).ic(0x0101);
}

#[test]
fn refusals_leave_the_registers() {
    let bench = || on(&[0x9314]).with(1, &[0x2000, 3, 0, 0x3000]);
    refused(bench().operand_page(3, 0x00FF), 0x0080, 0x0101);
    refused(bench().operand_page(2, 0x0802), 0x8000, 0x0101);
    // The source first: its refusal is the one that is marked.
    refused(bench().operand_page(3, 0x00FF).operand_page(2, 0x0802), 0x0080, 0x0101);
}

#[test]
fn interrupt_between_words() {
    let mut bench = on(&[0x9314]).with(1, &[0x0300, 3, 0, 0x0200]).memory(0x0200, &[7, 8, 9]);
    bench = bench.memory(0x0020, &[0x0400, 0x0410]).memory(0x0410, &[0, 0, 0x0500]);
    bench = bench.memory(0x0500, &[0x7D00, 0x0400]).go();
    bench.state.pi = 0x8000;
    let entered = bench.go().ic(0x0500).holds(0x0402, &[0x0100]).has(1, &[0x0301, 2]);
    entered.go().ic(0x0100).steps(2).holds(0x0300, &[7, 8, 9]).has(1, &[0x0303, 0]).ic(0x0101);
}

#[test]
fn move_may_change_itself() {
    // The first word moved replaces MOV by NOP.
    let bench = on(&[0x9314]).with(1, &[0x0100, 2, 0, 0x0200]).memory(0x0200, &[0xFF00, 0xFF00]);
    bench.go().ic(0x0100).go().ic(0x0101).has(1, &[0x0101, 1, 0, 0x0201]);
}
