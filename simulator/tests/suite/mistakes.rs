//! Mistakes that pass a casual trial: each test fails for a machine that makes it.

use crate::bench::{on, refused};

#[test]
fn second_word_of_a_pair_is_checked_on_a_load() {
    let bench = on(&[0x8610, 0x2FFF]).operand_page(3, 0x5003).sw(0x0040);
    let bench = bench.instruction_page(0, 0xF000).operand_page(2, 0xF002);
    refused(bench, 0x8000, 0x0102);
}

#[test]
fn second_word_of_a_pair_is_checked_on_a_store() {
    let bench = on(&[0x9610, 0x2FFF]).with(1, &[0xAAAA, 0xBBBB]).operand_page(3, 0x0803);
    refused(bench, 0x8000, 0x0102);
}

#[test]
fn second_and_third_words_are_checked_for_extended_floats() {
    let bench = |address| on(&[0x8A10, address]).operand_page(3, 0x00FF);
    refused(bench(0x2FFF), 0x0080, 0x0102);
    refused(bench(0x2FFE), 0x0080, 0x0102);
    bench(0x2FFD).go().ft(0);
}

#[test]
fn right_shift_of_a_negative_mantissa_stays_below_zero() {
    // -1 of 2^-23 shifted right by 24 or more is -1, so that the sum is one unit lower.
    for exponent in [0xE8, 0xE7, 0xE0, 0x80] {
        let bench = on(&[0xA902]).with(0, &[0x4000, 0x0100, 0xFFFF, 0xFF00 | exponent]);
        bench.go().has(0, &[0x4000, 0x0000]).fine(0b0100, 0);
    }
    let far = on(&[0xA902]).with(0, &[0x4000, 0x017F, 0x8000, 0x0080]).go();
    far.has(0, &[0x4000, 0x007F]).fine(0b0100, 0);
    let negative = on(&[0xA902]).with(0, &[0x8000, 0x0080, 0x4000, 0x017F]).go();
    negative.has(0, &[0x4000, 0x007F]).fine(0b0100, 0);
    let less = on(&[0xB902]).with(0, &[0x4000, 0x007F, 0x8000, 0x0080]).go();
    less.has(0, &[0x4000, 0x017F]).fine(0b0100, 0);
}

#[test]
fn right_shift_of_an_extended_negative_mantissa_stays_below_zero() {
    let bench = on(&[0xAB03]).with(0, &[0x4000, 0x0000, 0x0001, 0x8000, 0x0080, 0x0000]);
    bench.go().has(0, &[0x4000, 0x0000, 0x0000]).fine(0b0100, 0);
}

#[test]
fn register_zero_is_no_index() {
    let start = on(&[0x8010, 0x0200]).with(0, &[0x0005]).memory(0x0200, &[7, 0, 0, 0, 0, 9]);
    start.go().has(1, &[7]);
    on(&[0x8510, 0x0200]).with(0, &[5]).go().has(1, &[0x0200]);
    let indirect = on(&[0x8410, 0x0200]).with(0, &[1]).memory(0x0200, &[0x0300, 0x0301]);
    indirect.memory(0x0300, &[3, 4]).go().has(1, &[3]);
    let based = on(&[0x4000]).with(0, &[1]).with(12, &[0x0200]).memory(0x0200, &[3, 4]);
    based.go().has(2, &[3]);
    let command = on(&[0x4810, 0x8000]).with(0, &[1]).go();
    command.has(1, &[0]).ft(0);
}

#[test]
fn branch_is_measured_from_itself() {
    on(&[0x7400]).go().ic(0x0100);
    on(&[0x7402]).go().ic(0x0102);
    on(&[0x74FF]).go().ic(0x00FF);
    on(&[0x747F]).go().ic(0x017F);
    on(&[0x7480]).go().ic(0x0080);
    on(&[0x75FE]).sw(0x2000).go().ic(0x00FE);
}

#[test]
fn no_half_of_a_register_block_is_stored() {
    let registers: [u16; 16] = std::array::from_fn(|number| 0x1110 + number as u16);
    let stm = on(&[0x99F0, 0x2FF8]).with(0, &registers).operand_page(3, 0x0803);
    refused(stm, 0x8000, 0x0102);
    let pshm = on(&[0x9F0E]).with(0, &registers).with(15, &[0x3005]).operand_page(2, 0x0802);
    refused(pshm, 0x8000, 0x0101);
    let popm = on(&[0x8F0E]).with(0, &registers).with(15, &[0x2FF8]).operand_page(3, 0x00FF);
    refused(popm, 0x0080, 0x0101);
    let lm = on(&[0x89F0, 0x2FF8]).with(0, &registers).operand_page(3, 0x00FF);
    refused(lm, 0x0080, 0x0102);
}
