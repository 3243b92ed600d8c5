//! Shift instructions (5.10 to 5.23), their examples aside.

use crate::bench::on;

/// RA shifted by a count: the result, CS and PI.
#[track_caller]
fn single(opcode: u16, value: u16, count: i16, result: u16, cs: u16, pi: u16) {
    let bench = on(&[opcode | 0x12]).with(1, &[value, count as u16]).go();
    bench.has(1, &[result, count as u16]).fine(cs, pi);
}

/// RA and RA+1 shifted by a count: the result, CS and PI.
#[track_caller]
fn double(opcode: u16, value: u32, count: i16, result: u32, cs: u16, pi: u16) {
    let words = |value: u32| [(value >> 16) as u16, value as u16];
    let bench = on(&[opcode | 0x13]).with(1, &words(value)).with(3, &[count as u16]).go();
    bench.has(1, &words(result)).has(3, &[count as u16]).fine(cs, pi);
}

#[test]
fn fixed_counts() {
    on(&[0x6001]).with(1, &[0xC000]).go().has(1, &[0x8000]).fine(0b0001, 0);
    on(&[0x60F1]).with(1, &[0xFFFF]).go().has(1, &[0]).fine(0b0010, 0);
    on(&[0x6101]).with(1, &[0x8001]).go().has(1, &[0x4000]).fine(0b0100, 0);
    on(&[0x61F1]).with(1, &[0xFFFF]).go().has(1, &[0]).fine(0b0010, 0);
    on(&[0x62F1]).with(1, &[0x8000]).go().has(1, &[0xFFFF]).fine(0b0001, 0);
    on(&[0x62F1]).with(1, &[0x7FFF]).go().has(1, &[0]).fine(0b0010, 0);
    on(&[0x63F1]).with(1, &[0x1234]).go().has(1, &[0x1234]).fine(0b0100, 0);
    on(&[0x6301]).with(1, &[0x8000]).go().has(1, &[0x0001]).fine(0b0100, 0);
}

#[test]
fn fixed_counts_of_doubles() {
    on(&[0x65F1]).with(1, &[0x1234, 0x8765]).go().has(1, &[0x8765, 0]).fine(0b0001, 0);
    on(&[0x66F1]).with(1, &[0x8234, 0x8765]).go().has(1, &[0, 0x8234]).fine(0b0100, 0);
    on(&[0x67F1]).with(1, &[0x8234, 0x8765]).go().has(1, &[0xFFFF, 0x8234]).fine(0b0001, 0);
    on(&[0x68F1]).with(1, &[0x8234, 0x7765]).go().has(1, &[0x7765, 0x8234]).fine(0b0100, 0);
    on(&[0x650F]).with(15, &[0x0000, 0x8000]).go().has(15, &[0x0001, 0x0000]);
}

#[test]
fn logical_by_register() {
    single(0x6A00, 0x8001, 1, 0x0002, 0b0100, 0);
    single(0x6A00, 0x8001, -1, 0x4000, 0b0100, 0);
    single(0x6A00, 0x8001, 0, 0x8001, 0b0001, 0);
    single(0x6A00, 0xFFFF, 16, 0, 0b0010, 0);
    single(0x6A00, 0xFFFF, -16, 0, 0b0010, 0);
    double(0x6D00, 0x8000_0001, 1, 2, 0b0100, 0);
    double(0x6D00, 0x8000_0001, -1, 0x4000_0000, 0b0100, 0);
    double(0x6D00, 0xFFFF_FFFF, 32, 0, 0b0010, 0);
    double(0x6D00, 0xFFFF_FFFF, -32, 0, 0b0010, 0);
    double(0x6D00, 0xFFFF_FFFF, 0, 0xFFFF_FFFF, 0b0001, 0);
}

#[test]
fn arithmetic_by_register() {
    single(0x6B00, 0x2000, 1, 0x4000, 0b0100, 0);
    single(0x6B00, 0x4000, 1, 0x8000, 0b0001, 0x0800);
    single(0x6B00, 0xC000, 1, 0x8000, 0b0001, 0);
    single(0x6B00, 0x8000, -15, 0xFFFF, 0b0001, 0);
    single(0x6B00, 0x8000, -16, 0xFFFF, 0b0001, 0);
    single(0x6B00, 0x7FFF, -16, 0, 0b0010, 0);
    single(0x6B00, 0x0000, 16, 0, 0b0010, 0);
    single(0x6B00, 0xFFFF, 15, 0x8000, 0b0001, 0);
    single(0x6B00, 0xFFFF, 16, 0x0000, 0b0010, 0x0800);
    double(0x6E00, 0x4000_0000, 1, 0x8000_0000, 0b0001, 0x0800);
    double(0x6E00, 0xFFFF_FFFF, 31, 0x8000_0000, 0b0001, 0);
    double(0x6E00, 0xFFFF_FFFF, 32, 0, 0b0010, 0x0800);
    double(0x6E00, 0x8000_0000, -32, 0xFFFF_FFFF, 0b0001, 0);
}

#[test]
fn sign_change_on_the_way_counts() {
    // 0101 goes to 1010 and back to 0100: the first and the last sign are alike.
    single(0x6B00, 0x5000, 2, 0x4000, 0b0100, 0x0800);
    double(0x6E00, 0x5000_0000, 2, 0x4000_0000, 0b0100, 0x0800);
    single(0x6B00, 0x0001, 16, 0x0000, 0b0010, 0x0800);
}

#[test]
fn cyclic_by_register() {
    single(0x6C00, 0x8001, 1, 0x0003, 0b0100, 0);
    single(0x6C00, 0x8001, -1, 0xC000, 0b0001, 0);
    single(0x6C00, 0x8001, 16, 0x8001, 0b0001, 0);
    single(0x6C00, 0x8001, -16, 0x8001, 0b0001, 0);
    double(0x6F00, 0x8000_0001, 1, 3, 0b0100, 0);
    double(0x6F00, 0x8000_0001, -1, 0xC000_0000, 0b0001, 0);
    double(0x6F00, 0x1234_5678, 16, 0x5678_1234, 0b0100, 0);
    double(0x6F00, 0x1234_5678, 32, 0x1234_5678, 0b0100, 0);
    double(0x6F00, 0x1234_5678, -32, 0x1234_5678, 0b0100, 0);
    double(0x6F00, 0x1234_5678, -8, 0x7812_3456, 0b0100, 0);
}

#[test]
fn count_in_the_shifted_register() {
    on(&[0x6A11]).with(1, &[2]).go().has(1, &[8]).fine(0b0100, 0);
    on(&[0x6B11]).with(1, &[0xFFFE]).go().has(1, &[0xFFFF]).fine(0b0001, 0);
    on(&[0x6C11]).with(1, &[0xFFFF]).go().has(1, &[0xFFFF]).fine(0b0001, 0);
    on(&[0x6D11]).with(1, &[2, 0x8000]).go().has(1, &[0x000A, 0]).fine(0b0100, 0);
    on(&[0x6D12]).with(1, &[0x0001, 4]).go().has(1, &[0x0010, 0x0040]).fine(0b0100, 0);
}
