//! Jumps, branches and subroutines (5.24 to 5.29, 5.31 to 5.37).

use crate::bench::{on, refused};

#[test]
fn jump_on_condition_by_every_code() {
    for cs in 0..16u16 {
        for code in 0..16u16 {
            let taken = code & cs != 0 || code == 7 || code == 15;
            let target = if taken { 0x0400 } else { 0x0102 };
            let word = 0x7000 | (code << 4);
            on(&[word, 0x0400]).sw(cs << 12).go().ic(target).fine(cs, 0);
            on(&[word + 1, 0x03F0]).with(1, &[16]).sw(cs << 12).go().ic(target);
            let indirect = on(&[word + 0x100, 0x0200]).memory(0x0200, &[0x0400]);
            indirect.sw(cs << 12).go().ic(target).fine(cs, 0);
            let indexed = on(&[word + 0x101, 0x0200]).with(1, &[1]).memory(0x0201, &[0x0400]);
            indexed.sw(cs << 12).go().ic(target);
        }
    }
}

#[test]
fn jump_to_subroutine() {
    on(&[0x7230, 0x0400]).sw(0x4000).go().ic(0x0400).has(3, &[0x0102]).fine(0b0100, 0);
    on(&[0x7231, 0x0400]).with(1, &[2]).go().ic(0x0402).has(3, &[0x0102]);
    on(&[0x7233, 0x0400]).with(3, &[2]).go().ic(0x0402).has(3, &[0x0102]);
}

#[test]
fn subtract_one_and_jump() {
    on(&[0x7330, 0x0400]).with(3, &[2]).sw(0x8000).go().ic(0x0400).has(3, &[1]).fine(0b0100, 0);
    on(&[0x7330, 0x0400]).with(3, &[1]).go().ic(0x0102).has(3, &[0]).fine(0b0010, 0);
    on(&[0x7330, 0x0400]).with(3, &[0]).go().ic(0x0400).has(3, &[0xFFFF]).fine(0b0001, 0);
    on(&[0x7330, 0x0400]).with(3, &[0x8000]).go().ic(0x0400).has(3, &[0x7FFF]).fine(0b0100, 0);
    on(&[0x7333, 0x0400]).with(3, &[4]).go().ic(0x0404).has(3, &[3]);
}

#[test]
fn branches_by_every_condition() {
    let rows: [(u16, &[u16]); 7] = [
        (0x7410, &[0, 1, 2, 3, 4, 5, 6, 7]),
        (0x7510, &[2]),
        (0x7610, &[1]),
        (0x7810, &[1, 2]),
        (0x7910, &[4]),
        (0x7A10, &[1, 4]),
        (0x7B10, &[2, 4]),
    ];
    for (code, patterns) in rows {
        for cs in 0..16u16 {
            let target = if patterns.contains(&(cs & 7)) { 0x0110 } else { 0x0101 };
            on(&[code]).sw(cs << 12).go().ic(target).fine(cs, 0);
        }
    }
}

#[test]
fn branches_wrap() {
    let mut bench = on(&[]).at(0).memory(0, &[0x74FF]).go();
    assert_eq!(bench.state.ic, 0xFFFF);
    bench = on(&[]).at(0xFFFF).memory(0xFFFF, &[0x7402]).go();
    assert_eq!(bench.state.ic, 1);
}

#[test]
fn load_status() {
    let words = [0x1234, 0x8765, 0x0ABC];
    let check = |bench: crate::bench::Bench| {
        let state = bench.go().ft(0).pi(0).state;
        assert_eq!([state.mk, state.sw, state.ic], words);
        assert!(!state.enabled && !state.hold);
    };
    check(on(&[0x7D00, 0x0200]).memory(0x0200, &words));
    check(on(&[0x7DF1, 0x0200]).with(1, &[3]).memory(0x0203, &words));
    check(on(&[0x7C00, 0x0200]).memory(0x0200, &[0x0300]).memory(0x0300, &words));
    check(on(&[0x7C21, 0x0200]).with(1, &[1]).memory(0x0201, &[0x0300]).memory(0x0300, &words));
}

#[test]
fn load_status_keeps_interrupts_enabled() {
    let mut bench = on(&[0x7D00, 0x0200]);
    bench.state.enabled = true;
    assert!(bench.go().state.enabled);
}

#[test]
fn load_status_is_privileged() {
    for code in [0x7C00, 0x7D00] {
        let bench = on(&[code, 0x0200]).sw(0x0010).instruction_page(0, 0xF000);
        refused(bench, 0x0020, 0x0101);
    }
}

#[test]
fn stack_and_return() {
    let call = on(&[0x7EF0, 0x0400]).with(15, &[0x0800]).sw(0x4000).go();
    let called = call.ic(0x0400).has(15, &[0x07FF]).holds(0x07FF, &[0x0102]).fine(0b0100, 0);
    let back = called.memory(0x0400, &[0x7FF0]).go();
    back.ic(0x0102).has(15, &[0x0800]).fine(0b0100, 0);
    on(&[0x7E31, 0x0400]).with(1, &[4]).with(3, &[0]).go().ic(0x0404).holds(0xFFFF, &[0x0102]);
    on(&[0x7E33, 0x0400]).with(3, &[9]).go().ic(0x0409).has(3, &[8]).holds(8, &[0x0102]);
    on(&[0x7F35]).with(3, &[0xFFFF]).memory(0xFFFF, &[0x0123]).go().ic(0x0123).has(3, &[0]);
}

#[test]
fn stack_refusals_change_nothing() {
    refused(on(&[0x7EF0, 0x0400]).with(15, &[0x2000]).operand_page(1, 0x0801), 0x8000, 0x0102);
    refused(on(&[0x7FF0]).with(15, &[0x2000]).operand_page(2, 0x00FF), 0x0080, 0x0101);
}
