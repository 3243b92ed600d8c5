//! Known instructions and what they come to.

use crate::bench::{on, refused, Bench};

#[test]
fn load_short_positive() {
    on(&[0x823F]).go().has(3, &[0x0010]).fine(0b0100, 0);
}

#[test]
fn load_short_negative() {
    on(&[0x8330]).go().has(3, &[0xFFFF]).fine(0b0001, 0);
}

#[test]
fn negate_smallest() {
    on(&[0xB412]).with(2, &[0x8000]).go().has(1, &[0x8000]).fine(0b0001, 0x0800);
}

#[test]
fn double_zero_less_one() {
    on(&[0xB702]).with(2, &[0, 1]).go().has(0, &[0xFFFF, 0xFFFF]).fine(0b0001, 0);
}

#[test]
fn double_smallest_less_one() {
    let bench = on(&[0xB702]).with(0, &[0x8000, 0, 0, 1]).go();
    bench.has(0, &[0x7FFF, 0xFFFF]).fine(0b1100, 0x0800);
}

#[test]
fn short_multiply_overflow() {
    on(&[0xC112]).with(1, &[0x0100, 0x0100]).go().has(1, &[0]).fine(0b0010, 0x0800);
}

#[test]
fn short_multiply_of_smallest() {
    on(&[0xC112]).with(1, &[0xFFFF, 0x8000]).go().has(1, &[0x8000]).fine(0b0001, 0x0800);
}

#[test]
fn float_subtract_with_shift() {
    let bench = on(&[0xB902]).with(0, &[0x4000, 0x0001, 0x7FFF, 0xFF00]).go();
    bench.has(0, &[0x4000, 0x00EB]).fine(0b0100, 0);
}

#[test]
fn float_subtract_from_zero() {
    let bench = on(&[0xB902]).with(0, &[0, 0, 0x4000, 0x00FF]).go();
    bench.has(0, &[0x8000, 0x00FE]).fine(0b0001, 0);
}

#[test]
fn float_negate_of_powers() {
    let negate = |upper, lower| on(&[0xBC02]).with(2, &[upper, lower]).go();
    negate(0x4000, 0x0000).has(0, &[0x8000, 0x00FF]).fine(0b0001, 0);
    negate(0x8000, 0x007F).has(0, &[0x7FFF, 0xFF7F]).fine(0b0100, 0x1000);
    negate(0x4000, 0x0080).has(0, &[0x0000, 0x0000]).fine(0b0010, 0x0200);
}

#[test]
fn lock_three() {
    let code = [0x8010, 0x2000];
    let bench = |sw| on(&code).sw(sw).instruction_page(0, 0xF000).operand_page(2, 0x3002);
    bench(0x0030).memory(0x2000, &[0x1234]).go().has(1, &[0x1234]).ft(0);
    refused(bench(0x0020), 0x8000, 0x0102).pi(0x4000);
}

#[test]
fn end_of_memory() {
    let bench = |frame| Bench::sized(8192).memory(0, &[0x8010, 0x3000]).operand_page(3, frame);
    bench(1).memory(0x1000, &[0x1234]).go().has(1, &[0x1234]).ft(0);
    refused(bench(2), 0x0080, 2).pi(0x4000);
}
