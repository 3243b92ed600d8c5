//! Fixed point arithmetic (5.55 to 5.59, 5.63 to 5.67, 5.71 to 5.73, 5.76 to 5.78).

use crate::bench::{on, Bench, Numbers};

/// The forms of a single operation on R2: register, direct, indexed, by base, by base and index.
struct Forms {
    register: u16,
    direct: u16,
    base: u16,
    extension: u16,
    immediate: u16,
}

const ADD: Forms = Forms { register: 0xA1, direct: 0xA0, base: 0x10, extension: 4, immediate: 1 };
const SUBTRACT: Forms =
    Forms { register: 0xB1, direct: 0xB0, base: 0x14, extension: 5, immediate: 2 };
const MULTIPLY: Forms =
    Forms { register: 0xC5, direct: 0xC4, base: 0x18, extension: 6, immediate: 3 };
const DIVIDE: Forms =
    Forms { register: 0xD5, direct: 0xD4, base: 0x1C, extension: 7, immediate: 5 };
const SHORT_MULTIPLY: Forms =
    Forms { register: 0xC1, direct: 0xC0, base: 0, extension: 0, immediate: 4 };
const SHORT_DIVIDE: Forms =
    Forms { register: 0xD1, direct: 0xD0, base: 0, extension: 0, immediate: 6 };

/// Every form of an operation of R2 (and R3) with an operand, after its step.
fn all_forms(forms: &Forms, accumulator: &[u16], operand: u16) -> Vec<Bench> {
    let start = |code: &[u16]| on(code).with(2, accumulator).sw(0xF000);
    let memory = |code: &[u16]| start(code).memory(0x0240, &[operand]).with(13, &[0x0200]);
    let mut benches = vec![
        start(&[(forms.register << 8) | 0x24]).with(4, &[operand]),
        memory(&[(forms.direct << 8) | 0x20, 0x0240]),
        memory(&[(forms.direct << 8) | 0x2D, 0x0040]),
        start(&[0x4A20 | forms.immediate, operand]),
    ];
    if forms.base != 0 {
        benches.push(memory(&[((forms.base + 1) << 8) | 0x40]));
        benches.push(memory(&[0x4105 | (forms.extension << 4)]).with(5, &[0x0040]));
    }
    benches.into_iter().map(Bench::go).collect()
}

/// Checks a single operation in every form.
#[track_caller]
fn check(forms: &Forms, accumulator: &[u16], operand: u16, result: &[u16], cs: u16, pi: u16) {
    for bench in all_forms(forms, accumulator, operand) {
        bench.has(2, result).fine(cs, pi);
    }
}

#[test]
fn single_add() {
    check(&ADD, &[1], 2, &[3], 0b0100, 0);
    check(&ADD, &[0xFFFF], 1, &[0], 0b1010, 0);
    check(&ADD, &[0x7FFF], 1, &[0x8000], 0b0001, 0x0800);
    check(&ADD, &[0x8000], 0x8000, &[0], 0b1010, 0x0800);
    check(&ADD, &[0x8000], 0xFFFF, &[0x7FFF], 0b1100, 0x0800);
    check(&ADD, &[0xFFFF], 0xFFFF, &[0xFFFE], 0b1001, 0);
    on(&[0xA22F]).with(2, &[0xFFF0]).go().has(2, &[0]).fine(0b1010, 0);
    on(&[0xA220]).with(2, &[0x7FFF]).go().has(2, &[0x8000]).fine(0b0001, 0x0800);
}

#[test]
fn single_subtract() {
    check(&SUBTRACT, &[3], 2, &[1], 0b1100, 0);
    check(&SUBTRACT, &[2], 2, &[0], 0b1010, 0);
    check(&SUBTRACT, &[0], 1, &[0xFFFF], 0b0001, 0);
    check(&SUBTRACT, &[0], 0, &[0], 0b1010, 0);
    check(&SUBTRACT, &[0x8000], 1, &[0x7FFF], 0b1100, 0x0800);
    check(&SUBTRACT, &[0x7FFF], 0xFFFF, &[0x8000], 0b0001, 0x0800);
    check(&SUBTRACT, &[0], 0x8000, &[0x8000], 0b0001, 0x0800);
    on(&[0xB22F]).with(2, &[0x0010]).go().has(2, &[0]).fine(0b1010, 0);
    on(&[0xB220]).with(2, &[0x0000]).go().has(2, &[0xFFFF]).fine(0b0001, 0);
}

#[test]
fn increment_and_decrement_memory() {
    let check = |code: u16, old: u16, new: u16, cs, pi| {
        let bench = on(&[code, 0x0200]).memory(0x0200, &[old]).go();
        bench.holds(0x0200, &[new]).fine(cs, pi).ic(0x0102);
        let bench = on(&[code | 1, 0x01F0]).with(1, &[0x10]).memory(0x0200, &[old]).go();
        bench.holds(0x0200, &[new]).fine(cs, pi);
    };
    check(0xA300, 0xFFFF, 0x0000, 0b1010, 0);
    check(0xA3F0, 0x7FFF, 0x800F, 0b0001, 0x0800);
    check(0xA300, 0x0000, 0x0001, 0b0100, 0);
    check(0xA3F0, 0xFFF8, 0x0008, 0b1100, 0);
    check(0xA300, 0x8000, 0x8001, 0b0001, 0);
    check(0xB300, 0x0001, 0x0000, 0b1010, 0);
    check(0xB300, 0x0000, 0xFFFF, 0b0001, 0);
    check(0xB3F0, 0x8000, 0x7FF0, 0b1100, 0x0800);
    check(0xB3F0, 0x0011, 0x0001, 0b1100, 0);
}

#[test]
fn absolute_and_negative() {
    on(&[0xA412]).with(2, &[0xFFFE]).sw(0x8000).go().has(1, &[2, 0xFFFE]).fine(0b0100, 0);
    on(&[0xA412]).with(2, &[0x8000]).go().has(1, &[0x8000]).fine(0b0001, 0x0800);
    on(&[0xA411]).with(1, &[0]).go().has(1, &[0]).fine(0b0010, 0);
    on(&[0xA513]).with(3, &[0xFFFF, 0xFFFF]).go().has(1, &[0, 1]).fine(0b0100, 0);
    on(&[0xA513]).with(3, &[0x8000, 0]).go().has(1, &[0x8000, 0]).fine(0b0001, 0x0800);
    on(&[0xA512]).with(2, &[0, 7]).go().has(1, &[0, 7]).fine(0b0100, 0);
    on(&[0xB412]).with(2, &[5]).sw(0x8000).go().has(1, &[0xFFFB]).fine(0b0001, 0);
    on(&[0xB412]).with(2, &[0]).go().has(1, &[0]).fine(0b0010, 0);
    on(&[0xB513]).with(3, &[0, 1]).go().has(1, &[0xFFFF, 0xFFFF]).fine(0b0001, 0);
    on(&[0xB513]).with(3, &[0x8000, 0]).go().has(1, &[0x8000, 0]).fine(0b0001, 0x0800);
    on(&[0xB513]).with(3, &[0, 0]).sw(0x8000).go().has(1, &[0, 0]).fine(0b0010, 0);
}

/// Checks a double operation of R2 and R3 by register, direct and indexed.
#[track_caller]
fn double(register: u16, left: u32, right: u32, result: u32, cs: u16, pi: u16) {
    let words = |value: u32| [(value >> 16) as u16, value as u16];
    let start = |code: &[u16]| on(code).with(2, &words(left)).sw(0xF000);
    let direct = (register - 1) << 8;
    let benches = [
        start(&[(register << 8) | 0x24]).with(4, &words(right)),
        start(&[direct | 0x20, 0x0240]).memory(0x0240, &words(right)),
        start(&[direct | 0x2D, 0x0040]).with(13, &[0x0200]).memory(0x0240, &words(right)),
    ];
    for bench in benches {
        bench.go().has(2, &words(result)).fine(cs, pi);
    }
}

#[test]
fn double_add_and_subtract() {
    double(0xA7, 0x0000_FFFF, 1, 0x0001_0000, 0b0100, 0);
    double(0xA7, 0xFFFF_FFFF, 1, 0, 0b1010, 0);
    double(0xA7, 0x7FFF_FFFF, 1, 0x8000_0000, 0b0001, 0x0800);
    double(0xA7, 0x8000_0000, 0x8000_0000, 0, 0b1010, 0x0800);
    double(0xA7, 0xFFFF_FFFF, 0xFFFF_FFFF, 0xFFFF_FFFE, 0b1001, 0);
    double(0xB7, 0x0001_0000, 1, 0x0000_FFFF, 0b1100, 0);
    double(0xB7, 0, 1, 0xFFFF_FFFF, 0b0001, 0);
    double(0xB7, 5, 5, 0, 0b1010, 0);
    double(0xB7, 0x7FFF_FFFF, 0xFFFF_FFFF, 0x8000_0000, 0b0001, 0x0800);
}

#[test]
fn short_multiply() {
    check(&SHORT_MULTIPLY, &[3], 0xFFFE, &[0xFFFA], 0b0001, 0);
    check(&SHORT_MULTIPLY, &[0x0100], 0x0080, &[0x8000], 0b0001, 0x0800);
    check(&SHORT_MULTIPLY, &[0xFF00], 0x0080, &[0x8000], 0b0001, 0);
    check(&SHORT_MULTIPLY, &[0xFFFF], 0, &[0], 0b0010, 0);
    check(&SHORT_MULTIPLY, &[0x8000], 2, &[0], 0b0010, 0x0800);
    on(&[0xC22F]).with(2, &[3]).go().has(2, &[48]).fine(0b0100, 0);
    on(&[0xC32F]).with(2, &[3]).go().has(2, &[0xFFD0]).fine(0b0001, 0);
    on(&[0xC320]).with(2, &[0x8000]).go().has(2, &[0x8000]).fine(0b0001, 0x0800);
}

#[test]
fn long_multiply() {
    check(&MULTIPLY, &[0x7FFF], 0x7FFF, &[0x3FFF, 0x0001], 0b0100, 0);
    check(&MULTIPLY, &[0xFFFF], 2, &[0xFFFF, 0xFFFE], 0b0001, 0);
    check(&MULTIPLY, &[0x8000], 0x8000, &[0x4000, 0], 0b0100, 0);
    check(&MULTIPLY, &[0], 0xFFFF, &[0, 0], 0b0010, 0);
    on(&[0xC5F3]).with(15, &[2]).with(3, &[3]).go().has(15, &[0, 6]);
}

#[test]
fn double_multiply() {
    double(0xC7, 0x0001_0000, 0x0000_7FFF, 0x7FFF_0000, 0b0100, 0);
    double(0xC7, 0x0001_0000, 0x0000_8000, 0x8000_0000, 0b0001, 0x0800);
    double(0xC7, 0xFFFF_0000, 0x0000_8000, 0x8000_0000, 0b0001, 0);
    double(0xC7, 0x0001_0000, 0x0001_0000, 0, 0b0010, 0x0800);
    double(0xC7, 0xFFFF_FFFF, 0x8000_0000, 0x8000_0000, 0b0001, 0x0800);
    double(0xC7, 0xFFFF_FFFF, 5, 0xFFFF_FFFB, 0b0001, 0);
}

#[test]
fn short_divide() {
    check(&SHORT_DIVIDE, &[7], 2, &[3, 1], 0b0100, 0);
    check(&SHORT_DIVIDE, &[0xFFF9], 2, &[0xFFFD, 0xFFFF], 0b0001, 0);
    check(&SHORT_DIVIDE, &[7], 0xFFFE, &[0xFFFD, 1], 0b0001, 0);
    check(&SHORT_DIVIDE, &[0xFFFF], 2, &[0, 0xFFFF], 0b0010, 0);
    check(&SHORT_DIVIDE, &[0x8000], 0xFFFF, &[0x8000, 0], 0b0001, 0x0800);
    check(&SHORT_DIVIDE, &[7], 0, &[0, 0], 0b0010, 0x0800);
    on(&[0xD221]).with(2, &[7]).go().has(2, &[3, 1]).fine(0b0100, 0);
    on(&[0xD32F]).with(2, &[0x21]).go().has(2, &[0xFFFE, 1]).fine(0b0001, 0);
    on(&[0xD320]).with(2, &[0x8000]).go().has(2, &[0x8000, 0]).fine(0b0001, 0x0800);
    // Divisor in the register of the remainder.
    on(&[0xD123]).with(2, &[17, 5]).go().has(2, &[3, 2]);
}

#[test]
fn long_divide() {
    check(&DIVIDE, &[0, 7], 2, &[3, 1], 0b0100, 0);
    check(&DIVIDE, &[0x0001, 0x0000], 3, &[0x5555, 1], 0b0100, 0);
    check(&DIVIDE, &[0xFFFF, 0xFFF9], 2, &[0xFFFD, 0xFFFF], 0b0001, 0);
    check(&DIVIDE, &[0, 0], 9, &[0, 0], 0b0010, 0);
    on(&[0xD523]).with(2, &[0, 5]).go().has(2, &[1, 0]).fine(0b0100, 0);
}

#[test]
fn double_divide() {
    double(0xD7, 7, 2, 3, 0b0100, 0);
    double(0xD7, 0xFFFF_FFF9, 2, 0xFFFF_FFFD, 0b0001, 0);
    double(0xD7, 0x7FFF_FFFF, 0xFFFF_FFFF, 0x8000_0001, 0b0001, 0);
    double(0xD7, 1, 2, 0, 0b0010, 0);
}

#[test]
fn operands_are_read_before_registers_are_written() {
    on(&[0xA723]).with(2, &[1, 2, 3]).go().has(2, &[3, 5, 3]);
    on(&[0xC512]).with(1, &[3, 0x4000]).go().has(1, &[0, 0xC000]);
    on(&[0xA512]).with(1, &[0, 0xFFFF, 0xFFFE]).go().has(1, &[0, 2, 0xFFFE]);
    on(&[0xB521]).with(1, &[0, 1]).go().has(1, &[0, 0xFFFF, 0xFFFF]);
    on(&[0x870F]).with(15, &[8, 9]).go().has(15, &[8, 8, 9]);
}

#[test]
fn sums_against_wide_numbers() {
    let mut numbers = Numbers::new(1);
    for _ in 0..20_000 {
        let (left, right) = (numbers.edge(), numbers.edge());
        let (sum, difference) =
            (u32::from(left) + u32::from(right), i32::from(left) - i32::from(right));
        let (signed_left, signed_right) = (i32::from(left as i16), i32::from(right as i16));
        let check = |code, exact: i32, carry: bool| {
            let result = exact as u16;
            let sign = if result == 0 {
                2
            } else if result < 0x8000 {
                4
            } else {
                1
            };
            let pi = if (-32768..=32767).contains(&exact) { 0 } else { 0x0800 };
            let bench = Bench::sized(4096).memory(0, &[code]).with(1, &[left, right]).go();
            bench.has(1, &[result]).fine(sign | if carry { 8 } else { 0 }, pi);
        };
        check(0xA112, signed_left + signed_right, sum > 0xFFFF);
        check(0xB112, signed_left - signed_right, difference >= 0);
    }
}
