//! Decisions D1 to D9 and D14 to D21 of docs/DECISIONS.md, each by the behaviour that shows it.

use crate::bench::{on, refused};

#[test]
fn d1_indirect_word_of_a_jump_not_made_is_checked() {
    refused(on(&[0x7100, 0x2000]).operand_page(2, 0x00FF), 0x0080, 0x0102);
    refused(on(&[0x7120, 0x2000]).sw(0x4000).operand_page(2, 0x00FF), 0x0080, 0x0102);
    on(&[0x7000, 0x2000]).operand_page(2, 0x00FF).go().ft(0).ic(0x0102);
}

#[test]
fn d2_push_stores_the_stack_pointer_as_just_decremented() {
    let bench = on(&[0x9FE2]).with(15, &[0x0800]).with(14, &[9]).with(0, &[1, 2, 3]).go();
    bench.holds(0x07FB, &[9, 0x07FC, 1, 2, 3]).has(15, &[0x07FB]);
    on(&[0x9FFF]).with(15, &[0x0800]).go().holds(0x07FF, &[0x07FF]).has(15, &[0x07FF]);
    let bench = on(&[0x9FDF]).with(13, &[5, 6, 0x0800]).go();
    bench.holds(0x07FD, &[5, 6, 0x07FF]).has(15, &[0x07FD]);
}

#[test]
fn d3_popped_stack_pointer_is_neither_read_nor_checked() {
    on(&[0x8FFF]).with(15, &[0x2000]).operand_page(2, 0x00FF).go().has(15, &[0x2001]).ft(0);
    // R15's word is the last of a forbidden page, R0's the first of the next.
    let bench = on(&[0x8FF0]).with(15, &[0x2FFF]).operand_page(2, 0x00FF).memory(0x3000, &[7]);
    bench.go().has(15, &[0x3001, 7]).ft(0);
}

#[test]
fn d4_read_of_a_read_modify_write_is_refused_first() {
    for code in [0x5010, 0x5310, 0x5910, 0x9710, 0x9B10, 0x9C10, 0xA310, 0xB310] {
        refused(on(&[code, 0x2000]).operand_page(2, 0x08FF), 0x0080, 0x0102);
        refused(on(&[code, 0x2000]).operand_page(2, 0x0802), 0x8000, 0x0102);
    }
}

#[test]
fn d5_byte_stores_read_and_write() {
    for code in [0x9B10, 0x9C10] {
        refused(on(&[code, 0x2000]).operand_page(2, 0x08FF), 0x0080, 0x0102);
    }
    for code in [0x9D10, 0x9E10] {
        let bench = on(&[code, 0x0200]).memory(0x0200, &[0x2000]);
        refused(bench.operand_page(2, 0x08FF), 0x0080, 0x0102);
    }
}

#[test]
fn d6_bit_stores_that_change_nothing_are_writes() {
    let bench = |code| on(&[code, 0x2000]).operand_page(2, 0x0802);
    refused(bench(0x5900).memory(0x2000, &[0x8000]), 0x8000, 0x0102);
    refused(bench(0x5000).memory(0x2000, &[0x8000]), 0x8000, 0x0102);
    refused(bench(0x5300).memory(0x2000, &[0x0000]), 0x8000, 0x0102);
    refused(bench(0x9710).with(1, &[0xFFFF, 0]), 0x8000, 0x0102);
}

#[test]
fn d7_shift_counts_out_of_range() {
    for count in [17, 0xFFEF, 0x7FFF, 0x8000, 33] {
        for opcode in [0x6A12, 0x6B12, 0x6C12] {
            let bench = on(&[opcode]).with(1, &[0x8001, count]).sw(0xF000).go();
            bench.has(1, &[0x8001]).fine(0b0001, 0x0800);
        }
    }
    for count in [33, 0xFFDF, 0x7FFF, 0x8000] {
        for opcode in [0x6D13, 0x6E13, 0x6F13] {
            let bench = on(&[opcode]).with(1, &[0, 0x8001, count]).sw(0xF000).go();
            bench.has(1, &[0, 0x8001]).fine(0b0100, 0x0800);
        }
    }
    on(&[0x6D13]).with(1, &[0, 1, 17]).go().has(1, &[2, 0]).fine(0b0100, 0);
}

#[test]
fn d8_fix_with_too_large_an_exponent() {
    let bench = on(&[0xE812]).with(1, &[0x8765, 0x4000, 0x0010]).go();
    bench.has(1, &[0x8765]).fine(0b0001, 0x0800);
    let zero = on(&[0xE812]).with(1, &[0x0765, 0x0000, 0x007F]).go();
    zero.has(1, &[0x0765]).fine(0b0100, 0x0800);
    let wide = on(&[0xEA14]).with(1, &[0x0000, 0x8765]).with(4, &[0x4000, 0x0020, 0]).go();
    wide.has(1, &[0x0000, 0x8765]).fine(0b0100, 0x0800);
    let zero = on(&[0xEA14]).with(1, &[0, 0]).with(4, &[0, 0x0020, 0]).go();
    zero.has(1, &[0, 0]).fine(0b0010, 0x0800);
}

#[test]
fn d9_overflow_of_the_long_divide() {
    let check = |dividend: [u16; 2], divisor: u16, result: [u16; 2], cs, pi| {
        on(&[0xD514]).with(1, &dividend).with(4, &[divisor]).go().has(1, &result).fine(cs, pi);
    };
    // -1 by 1: the upper word's magnitude is 1, so that it overflows with the true quotient.
    check([0xFFFF, 0xFFFF], 1, [0xFFFF, 0], 0b0001, 0x0800);
    // 7FFF 8000 by 8000: no overflow by the test, although the quotient is -65535.
    check([0x7FFF, 0x8000], 0x8000, [0x0001, 0], 0b0100, 0);
    check([0x0001, 0x0005], 1, [0x0005, 0], 0b0100, 0x0800);
    check([0x8000, 0x0000], 0x8000, [0x0000, 0], 0b0010, 0x0800);
    check([0x8000, 0x0001], 0x7FFF, [0xFFFE, 0xFFFF], 0b0001, 0x0800);
    check([0x1234, 0x5678], 0, [0, 0], 0b0010, 0x0800);
}

#[test]
fn d14_branch_patterns_are_exact() {
    for code in [0x7510, 0x7610, 0x7810, 0x7910, 0x7A10, 0x7B10] {
        for cs in [0b0000, 0b1000, 0b0110, 0b0011, 0b0101, 0b0111, 0b1111] {
            on(&[code]).sw(cs << 12).go().ic(0x0101);
        }
    }
    for cs in [0b0010, 0b1010] {
        on(&[0x7510]).sw(cs << 12).go().ic(0x0110);
    }
}

#[test]
fn d15_set_pending_replaces_and_leaves_faults() {
    let mut bench = on(&[0x4810, 0x2005]).with(1, &[0x0800]);
    (bench.state.pi, bench.state.ft) = (0x4001, 0x0040);
    bench.go().pi(0x0800).ft(0x0040);
}

#[test]
fn d16_executive_call_leaves_its_bit_clear() {
    let mut bench = on(&[0x7700]).memory(0x002A, &[0x0200, 0x0300]);
    bench = bench.memory(0x0300, &[0, 0, 0x0900]);
    bench.go().pi(0).ic(0x0900);
    // It was pending before, held back by the hold mark for this instruction.
    let mut bench = on(&[0x7700]).memory(0x002A, &[0x0200, 0x0300]);
    (bench.state.pi, bench.state.hold) = (0x0480, true);
    bench.memory(0x0300, &[0, 0, 0x0900]).go().pi(0x0080).ic(0x0900).holds(0x0202, &[0x0101]);
}

#[test]
fn d17_overflow_of_the_double_multiply() {
    // The upper accumulator word is 0, the product does not fit all the same.
    let bench = on(&[0xC703]).with(0, &[0x0000, 0xFFFF]).with(3, &[0xFFFF, 0x0000]).go();
    bench.has(0, &[0x0001, 0x0000]).fine(0b0100, 0x0800);
    // A zero operand beside a negative one.
    let bench = on(&[0xC703]).with(0, &[0xFFFF, 0xFFFF]).with(3, &[0, 0]).go();
    bench.has(0, &[0, 0]).fine(0b0010, 0);
    let bench = on(&[0xC703]).with(0, &[0, 0]).with(3, &[0x8000, 0]).go();
    bench.has(0, &[0, 0]).fine(0b0010, 0);
    let bench = on(&[0xC703]).with(0, &[0, 5]).with(3, &[0xFFFF, 0xFFFF]).go();
    bench.has(0, &[0xFFFF, 0xFFFB]).fine(0b0001, 0);
}

#[test]
fn d18_double_divide() {
    let check = |dividend: [u16; 2], divisor: [u16; 2], result: [u16; 2], cs, pi| {
        on(&[0xD703]).with(0, &dividend).with(3, &divisor).go().has(0, &result).fine(cs, pi);
    };
    check([0x8000, 0x0000], [0xFFFF, 0xFFFF], [0x8000, 0x0000], 0b0001, 0x0800);
    check([0x8000, 0x0001], [0xFFFF, 0xFFFF], [0x7FFF, 0xFFFF], 0b0100, 0);
    check([0x8000, 0x0000], [0xFFFF, 0x0000], [0x0000, 0x8000], 0b0100, 0);
    check([0x1234, 0x5678], [0, 0], [0, 0], 0b0010, 0x0800);
}

#[test]
fn d19_reserved_bits_of_page_registers() {
    let bench = on(&[0x4810, 0x5202, 0x4820, 0xD202, 0x8030, 0x2000]).with(1, &[0x0705]);
    let bench = bench.memory(0x5000, &[0x1234]).steps(3);
    bench.has(2, &[0x0705, 0x1234]).ft(0);
    let bench = on(&[0x4810, 0x5101, 0x4820, 0xD101]).with(1, &[0xFFFF]).steps(2);
    bench.has(2, &[0xFFFF]).ft(0);
}

#[test]
fn d20_timer_b_rises_in_the_tenth_step() {
    let mut bench = on(&[]);
    bench.memory.fill(0xFF00);
    let bench = bench.steps(9);
    assert_eq!(bench.state.timer_b, 0);
    let bench = bench.go();
    assert_eq!((bench.state.timer_b, bench.state.counter), (1, 10));
    let bench = bench.steps(9);
    assert_eq!(bench.state.timer_b, 1);
    assert_eq!(bench.go().state.timer_b, 2);
}

#[test]
fn d21_move_checks_its_source_first() {
    let bench = on(&[0x9313]).with(1, &[0x2000, 1, 0x3000]);
    let bench = bench.operand_page(2, 0x0802).operand_page(3, 0x00FF);
    refused(bench, 0x0080, 0x0101);
    let bench = on(&[0x9313]).with(1, &[0x2000, 1, 0x3000]).operand_page(2, 0x0802);
    refused(bench, 0x8000, 0x0101);
}
