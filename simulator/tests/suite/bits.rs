//! Bit instructions (5.3 to 5.9) in every addressing mode.

use crate::bench::on;

#[test]
fn set_bit() {
    on(&[0x5112]).with(2, &[0]).sw(0x8000).go().has(2, &[0x4000]).fine(0b1000, 0);
    on(&[0x50F0, 0x0200]).go().holds(0x0200, &[0x0001]).ic(0x0102);
    on(&[0x5001, 0x0200]).with(1, &[3]).go().holds(0x0200, &[0, 0, 0, 0x8000]);
    on(&[0x5280, 0x0200]).memory(0x0200, &[0x0300]).go().holds(0x0300, &[0x0080]);
    on(&[0x5281, 0x0200]).with(1, &[1]).memory(0x0201, &[0x0300]).go().holds(0x0300, &[0x0080]);
}

#[test]
fn reset_bit() {
    on(&[0x5412]).with(2, &[0xFFFF]).go().has(2, &[0xBFFF]).fine(0, 0);
    on(&[0x53F0, 0x0200]).memory(0x0200, &[0xFFFF]).go().holds(0x0200, &[0xFFFE]);
    let indexed = on(&[0x5301, 0x0200]).with(1, &[1]).memory(0x0201, &[0xFFFF]);
    indexed.go().holds(0x0201, &[0x7FFF]);
    let indirect = on(&[0x5580, 0x0200]).memory(0x0200, &[0x0300]).memory(0x0300, &[0xFFFF]);
    indirect.go().holds(0x0300, &[0xFF7F]);
    let indexed = on(&[0x5581, 0x0200]).with(1, &[1]).memory(0x0201, &[0x0300]);
    indexed.memory(0x0300, &[0x00FF]).go().holds(0x0300, &[0x007F]);
}

#[test]
fn test_bit() {
    on(&[0x5702]).with(2, &[0x8000]).go().fine(0b0001, 0);
    on(&[0x5712]).with(2, &[0x4000]).go().fine(0b0100, 0);
    on(&[0x57F2]).with(2, &[0xFFFE]).sw(0x8000).go().fine(0b0010, 0);
    on(&[0x5600, 0x0200]).memory(0x0200, &[0x8000]).go().fine(0b0001, 0);
    on(&[0x56F1, 0x0200]).with(1, &[1]).memory(0x0201, &[1]).go().fine(0b0100, 0);
    let indirect = on(&[0x5810, 0x0200]).memory(0x0200, &[0x0300]).memory(0x0300, &[0xBFFF]);
    indirect.go().fine(0b0010, 0);
    let indexed = on(&[0x5811, 0x0200]).with(1, &[1]).memory(0x0201, &[0x0300]);
    indexed.memory(0x0300, &[0x4000]).go().fine(0b0100, 0);
}

#[test]
fn test_and_set_bit() {
    on(&[0x5900, 0x0200]).go().holds(0x0200, &[0x8000]).fine(0b0010, 0);
    on(&[0x5900, 0x0200]).memory(0x0200, &[0x8001]).go().holds(0x0200, &[0x8001]).fine(0b0001, 0);
    let indexed = on(&[0x5911, 0x0200]).with(1, &[1]).memory(0x0201, &[0x4000]);
    indexed.go().holds(0x0201, &[0x4000]).fine(0b0100, 0);
}

#[test]
fn variable_bits() {
    on(&[0x5A12]).with(1, &[0xFFF3, 0]).go().has(1, &[0xFFF3, 0x1000]).fine(0, 0);
    on(&[0x5A11]).with(1, &[0x0005]).go().has(1, &[0x0405]);
    on(&[0x5C12]).with(1, &[0x0010, 0xFFFF]).go().has(1, &[0x0010, 0x7FFF]).fine(0, 0);
    on(&[0x5C11]).with(1, &[0x000F]).go().has(1, &[0x000E]);
    on(&[0x5E12]).with(1, &[0xFFF0, 0x8000]).go().fine(0b0001, 0);
    on(&[0x5E12]).with(1, &[0x0002, 0x2000]).go().fine(0b0100, 0);
    on(&[0x5E12]).with(1, &[0x0002, 0xDFFF]).go().fine(0b0010, 0);
}
