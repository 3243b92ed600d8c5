//! Decisions D10 to D13 and D22 of docs/DECISIONS.md, each by the behaviour that shows it.

use crate::bench::on;

/// A float operation of R0, R1 with R2, R3.
#[track_caller]
fn check(opcode: u16, left: [u16; 2], right: [u16; 2], result: [u16; 2], cs: u16, pi: u16) {
    let bench = on(&[(opcode << 8) | 2]).with(0, &left).with(2, &right).go();
    bench.has(0, &result).fine(cs, pi);
}

const FMR: u16 = 0xC9;
const FDR: u16 = 0xD9;
const LARGEST: [u16; 2] = [0x7FFF, 0xFF7F];
const SMALLEST: [u16; 2] = [0x8000, 0x007F];

#[test]
fn d10_early_exponent_tests_stand_for_all_operands() {
    // The product would fit after normalising, but the sum of the exponents is 80.
    check(FMR, [0x0000, 0x017F], [0x0000, 0x0101], LARGEST, 0b0100, 0x1000);
    check(FMR, [0xFFFF, 0xFF7F], [0x0000, 0x0101], SMALLEST, 0b0001, 0x1000);
    // The quotient would be in range, but the difference of the exponents is below 80.
    check(FDR, [0x7FFF, 0xFF80], [0x0000, 0x0101], [0, 0], 0b0010, 0x0200);
    check(FDR, [0x0000, 0x017F], [0x4000, 0x00FF], LARGEST, 0b0100, 0x1000);
    // In range, operands that are not normalised are cut off below after normalising.
    check(FMR, [0x1000, 0x0000], [0x1000, 0x0000], [0x4000, 0x00FB], 0b0100, 0);
    check(FMR, [0xFFFF, 0xFF00], [0x6000, 0x0000], [0xA000, 0x00E9], 0b0001, 0);
    check(FDR, [0x1000, 0x0000], [0x0800, 0x0000], [0x4000, 0x0002], 0b0100, 0);
}

#[test]
fn d11_zero_factor() {
    check(FMR, [0x0000, 0x007F], [0x4000, 0x0001], LARGEST, 0b0100, 0x1000);
    check(FMR, [0x0000, 0x007F], [0x8000, 0x0001], SMALLEST, 0b0001, 0x1000);
    check(FMR, [0x0000, 0x0080], [0x4000, 0x00FF], [0, 0], 0b0010, 0x0200);
    check(FMR, [0x0000, 0x007F], [0x4000, 0x0000], [0, 0], 0b0010, 0);
    check(FMR, [0x4000, 0x0080], [0x0000, 0x0000], [0, 0], 0b0010, 0);
}

#[test]
fn d11_zero_dividend() {
    check(FDR, [0x0000, 0x007F], [0x4000, 0x00FF], LARGEST, 0b0100, 0x1000);
    check(FDR, [0x0000, 0x007F], [0x8000, 0x00FF], SMALLEST, 0b0001, 0x1000);
    check(FDR, [0x0000, 0x0080], [0x4000, 0x0001], [0, 0], 0b0010, 0x0200);
    check(FDR, [0x0000, 0x007F], [0x4000, 0x0000], [0, 0], 0b0010, 0);
    check(FDR, [0x0000, 0x0080], [0x4000, 0x0000], [0, 0], 0b0010, 0);
}

#[test]
fn d12_last_steps_of_the_quotient() {
    // Exactly -1.0 at 7F.
    check(FDR, [0xA000, 0x007F], [0x6000, 0x0000], SMALLEST, 0b0001, 0x1000);
    // -2.0 at 7E.
    check(FDR, [0x8000, 0x007E], [0x4000, 0x0000], SMALLEST, 0b0001, 0);
    // Exactly -1.0 below 7F: shifted right and normalised back.
    check(FDR, [0xA000, 0x007E], [0x6000, 0x0000], [0x8000, 0x007E], 0b0001, 0);
    // -0.5 becomes -1.0 with the exponent below.
    check(FDR, [0xC000, 0x0000], [0x8000, 0x0000], [0x4000, 0x0000], 0b0100, 0);
    check(FDR, [0x4000, 0x0081], [0x8000, 0x0000], [0x8000, 0x0080], 0b0001, 0);
    check(FDR, [0x4000, 0x0080], [0x8000, 0x0000], [0, 0], 0b0010, 0x0200);
    // Operands that are not normalised: further to the right, with overflow at the end.
    check(FDR, [0x4000, 0x0000], [0x0000, 0x0100], [0x4000, 0x0017], 0b0100, 0);
    check(FDR, [0x4000, 0x0070], [0x0000, 0x0100], LARGEST, 0b0100, 0x1000);
    check(FDR, [0x4000, 0x0070], [0xFFFF, 0xFF00], SMALLEST, 0b0001, 0x1000);
    check(FDR, [0x4000, 0x0069], [0xFFFF, 0xFF00], [0x8000, 0x007F], 0b0001, 0);
    check(FDR, [0x4000, 0x006A], [0xFFFF, 0xFF00], SMALLEST, 0b0001, 0x1000);
    // Further to the left, with underflow at the end.
    check(FDR, [0x0000, 0x0180], [0x4000, 0x0000], [0, 0], 0b0010, 0x0200);
}

#[test]
fn d12_extended_width() {
    let check = |left: [u16; 3], right: [u16; 3], result: [u16; 3], cs, pi| {
        on(&[0xDB03]).with(0, &left).with(3, &right).go().has(0, &result).fine(cs, pi);
    };
    check([0xA000, 0x007F, 0], [0x6000, 0, 0], [0x8000, 0x007F, 0], 0b0001, 0x1000);
    check([0x8000, 0x007E, 0], [0x4000, 0, 0], [0x8000, 0x007F, 0], 0b0001, 0);
    check([0x4000, 0x0080, 0], [0x8000, 0, 0], [0, 0, 0], 0b0010, 0x0200);
    check([0x4000, 0x0000, 0], [0, 0, 1], [0x4000, 0x0027, 0], 0b0100, 0);
    check([0x4000, 0x0060, 0], [0, 0, 1], [0x7FFF, 0xFF7F, 0xFFFF], 0b0100, 0x1000);
}

#[test]
fn d13_absolute_and_negative_keep_what_is_not_normalised() {
    let one = |code: u16, from: [u16; 2], to: [u16; 2], cs| {
        on(&[code]).with(2, &from).go().has(0, &to).fine(cs, 0);
    };
    one(0xAC02, [0x0000, 0x0055], [0x0000, 0x0055], 0b0010);
    one(0xBC02, [0x0000, 0x0055], [0x0000, 0x0055], 0b0010);
    one(0xAC02, [0x0001, 0x0055], [0x0001, 0x0055], 0b0100);
    one(0xAC02, [0xFFFF, 0xFF55], [0x0000, 0x0155], 0b0100);
    one(0xBC02, [0xFFFF, 0xFF55], [0x0000, 0x0155], 0b0100);
    one(0xBC02, [0x0000, 0x0155], [0xFFFF, 0xFF55], 0b0001);
    one(0xBC02, [0xC000, 0x0055], [0x4000, 0x0055], 0b0100);
    one(0xBC02, [0x2000, 0x0080], [0xE000, 0x0080], 0b0001);
}

#[test]
fn d22_sign_and_mantissa_are_those_of_the_quotient() {
    // Minus by minus overflows to the largest, although the divisor is negative.
    check(FDR, [0xA000, 0x007F], [0xA000, 0x0000], LARGEST, 0b0100, 0x1000);
    // Minus by plus overflows to the smallest, although the divisor is positive.
    check(FDR, [0xA000, 0x007F], [0x6000, 0x0000], SMALLEST, 0b0001, 0x1000);
    // The mantissa stored is the quotient's, not the divisor's.
    check(FDR, [0x6000, 0x0002], [0x4000, 0x0002], [0x6000, 0x0001], 0b0100, 0);
}
