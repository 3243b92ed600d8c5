//! Readings without an alternative, as docs/DECISIONS.md lists them, where no other test has them.

use crate::bench::{on, refused};

#[test]
fn ic_after_a_fault() {
    refused(on(&[0x8010]).instruction_page(0, 0x0800), 0x8000, 0x0101);
    refused(on(&[0x4900]), 0x0040, 0x0101);
    refused(on(&[0x4800]).sw(0x0010).instruction_page(0, 0xF000), 0x0020, 0x0101);
    refused(on(&[0x8010, 0x2000]).operand_page(2, 0x00FF), 0x0080, 0x0102);
    refused(on(&[0x4810, 0x4000]), 0x0400, 0x0102);
    refused(on(&[0x9313]).with(1, &[0x2000, 5, 0x3000]).operand_page(3, 0x00FF), 0x0080, 0x0101);
    refused(on(&[0x0020]).with(12, &[0x2000]).operand_page(2, 0x00FF), 0x0080, 0x0101);
    refused(on(&[0x7100, 0x2000]).operand_page(2, 0x00FF), 0x0080, 0x0102);
}

#[test]
fn ic_wraps_while_fetching() {
    let bench = on(&[]).at(0xFFFF).memory(0xFFFF, &[0x8510]).memory(0, &[0x1234]).go();
    bench.has(1, &[0x1234]).ic(1);
    refused(on(&[]).at(0xFFFF).memory(0xFFFF, &[0x8510]).instruction_page(0, 0x0800), 0x8000, 1);
}

#[test]
fn cs_untouched() {
    let codes: [&[u16]; 26] = [
        &[0x4810, 0xA000],
        &[0x4810, 0x8000],
        &[0x4810, 0xC00A],
        &[0x4810, 0xD100],
        &[0x8910, 0x0200],
        &[0x8F11],
        &[0x9F11],
        &[0x9313],
        &[0x9010, 0x0200],
        &[0x9110, 0x0200],
        &[0x9610, 0x0200],
        &[0x9710, 0x0200],
        &[0x9910, 0x0200],
        &[0x9A10, 0x0200],
        &[0x9B10, 0x0200],
        &[0x9C10, 0x0200],
        &[0x5010, 0x0200],
        &[0x5310, 0x0200],
        &[0x5111],
        &[0x5411],
        &[0x5A11],
        &[0x5C11],
        &[0x7210, 0x0200],
        &[0x7E10, 0x0200],
        &[0x7F10],
        &[0x7000, 0x0200],
    ];
    for code in codes {
        for cs in [0b0000, 0b1011] {
            let bench = on(code).with(1, &[0x0800, 1, 0x0900]).with(15, &[0x0A00]);
            bench.sw(cs << 12).go().fine(cs, 0);
        }
    }
}

#[test]
fn all_four_bits_are_set_and_the_rest_is_kept() {
    let bench = on(&[0x823F]).sw(0xFF05);
    assert_eq!(bench.go().state.sw, 0x4F05);
    let bench = on(&[0xA112]).with(1, &[0xFFFF, 1]).sw(0x0F0A);
    assert_eq!(bench.go().state.sw, 0xAF0A);
    let bench = on(&[0x7310, 0x0200]).with(1, &[2]).sw(0xF000);
    assert_eq!(bench.go().state.sw, 0x4000);
}

#[test]
fn zero_divisor_mantissa_comes_before_underflow() {
    let check = |left: [u16; 2], right: [u16; 2], result: [u16; 2], cs| {
        let bench = on(&[0xD902]).with(0, &left).with(2, &right).go();
        bench.has(0, &result).fine(cs, 0x1000);
    };
    check([0x0000, 0x0000], [0x0000, 0x0000], [0x7FFF, 0xFF7F], 0b0100);
    check([0x4000, 0x0080], [0x0000, 0x007F], [0x7FFF, 0xFF7F], 0b0100);
    check([0xA000, 0x0080], [0x0000, 0x007F], [0x8000, 0x007F], 0b0001);
    check([0xA000, 0x0000], [0x0000, 0x0011], [0x8000, 0x007F], 0b0001);
}

#[test]
fn mantissa_overflow_drops_the_low_bit() {
    let check = |left: [u16; 2], right: [u16; 2], result: [u16; 2], cs, pi| {
        on(&[0xA902]).with(0, &left).with(2, &right).go().has(0, &result).fine(cs, pi);
    };
    check([0x7FFF, 0xFF00], [0x7FFF, 0xFE00], [0x7FFF, 0xFE01], 0b0100, 0);
    check([0x8000, 0x0000], [0xFFFF, 0xFF00], [0xBFFF, 0xFF01], 0b0001, 0);
    check([0x7FFF, 0xFF7F], [0x0000, 0x017F], [0x7FFF, 0xFF7F], 0b0100, 0x1000);
    check([0x8000, 0x007F], [0xFFFF, 0xFF7F], [0x8000, 0x007F], 0b0001, 0x1000);
}

#[test]
fn zero_mantissas_in_a_sum() {
    let check = |code: u16, left: [u16; 2], right: [u16; 2], result: [u16; 2], cs, pi| {
        on(&[code]).with(0, &left).with(2, &right).go().has(0, &result).fine(cs, pi);
    };
    // A zero accumulator takes the operand's exponent, higher or lower.
    check(0xA902, [0x0000, 0x007F], [0x4000, 0x0005], [0x4000, 0x0005], 0b0100, 0);
    check(0xA902, [0x0000, 0x0080], [0x4000, 0x0005], [0x4000, 0x0005], 0b0100, 0);
    // A zero operand leaves the accumulator its exponent, higher or lower.
    check(0xA902, [0x4000, 0x0005], [0x0000, 0x007F], [0x4000, 0x0005], 0b0100, 0);
    check(0xA902, [0x4000, 0x0005], [0x0000, 0x0080], [0x4000, 0x0005], 0b0100, 0);
    check(0xB902, [0x2000, 0x0005], [0x0000, 0x007F], [0x4000, 0x0004], 0b0100, 0);
    // Nothing but zeros is zero without underflow, whatever the exponents.
    check(0xA902, [0x0000, 0x0080], [0x0000, 0x0080], [0, 0], 0b0010, 0);
    check(0xA902, [0x4000, 0x0080], [0xC000, 0x0080], [0, 0], 0b0010, 0);
    check(0xA902, [0x2000, 0x0080], [0x0000, 0x0000], [0, 0], 0b0010, 0x0200);
}

#[test]
fn floats_as_doubles() {
    // DL and DLR set CS from the 32-bit integer: a zero mantissa with an exponent is positive.
    on(&[0x8612, 0x0200]).memory(0x0200, &[0, 0x0005]).go().fine(0b0100, 0);
    on(&[0x8713]).with(3, &[0, 0x0005]).go().fine(0b0100, 0);
}

#[test]
fn multiple_loads_derive_their_address_first() {
    let bench = on(&[0x8921, 0x0200]).with(1, &[2]).memory(0x0202, &[7, 8, 9]).go();
    bench.has(0, &[7, 8, 9]);
}

#[test]
fn pending_bits_add_up() {
    let mut bench = on(&[0xB412]).with(2, &[0x8000]);
    bench.state.pi = 0x2001;
    bench.go().pi(0x2801);
}
