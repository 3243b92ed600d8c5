//! Store instructions (5.45 to 5.54) in every addressing mode; none changes CS.

use crate::bench::on;

#[test]
fn single_store() {
    let word = [0xABCD];
    for base in 0..4u16 {
        let number = 12 + usize::from(base);
        let bench = on(&[0x0880 | (base << 8)]).with(2, &word).with(number, &[0x0200]);
        bench.sw(0x9000).go().holds(0x0280, &word).fine(0b1001, 0).ic(0x0101);
        let bench = on(&[0x4021 | (base << 8)]).with(1, &[3]).with(2, &word);
        bench.with(number, &[0x0200]).go().holds(0x0203, &word);
    }
    on(&[0x9030, 0x0200]).with(3, &word).sw(0x9000).go().holds(0x0200, &word).fine(0b1001, 0);
    on(&[0x9031, 0x0200]).with(3, &word).with(1, &[1]).go().holds(0x0201, &word).ic(0x0102);
    on(&[0x9430, 0x0200]).with(3, &word).memory(0x0200, &[0x0300]).go().holds(0x0300, &word);
    let indexed = on(&[0x9431, 0x0200]).with(3, &word).with(1, &[1]).memory(0x0201, &[0x0300]);
    indexed.go().holds(0x0300, &word);
}

#[test]
fn store_constant() {
    on(&[0x91F0, 0x0200]).go().holds(0x0200, &[15]);
    on(&[0x9101, 0x0200]).with(1, &[1]).memory(0x0201, &[9]).go().holds(0x0201, &[0]);
    on(&[0x9270, 0x0200]).memory(0x0200, &[0x0300]).go().holds(0x0300, &[7]);
    on(&[0x9271, 0x0200]).with(1, &[1]).memory(0x0201, &[0x0300]).go().holds(0x0300, &[7]);
}

#[test]
fn double_store() {
    for base in 0..4u16 {
        let number = 12 + usize::from(base);
        let bench = on(&[0x0C10 | (base << 8)]).with(0, &[1, 2]).with(number, &[0x0200]);
        bench.go().holds(0x0210, &[1, 2]);
        let bench = on(&[0x4033 | (base << 8)]).with(0, &[1, 2, 0, 8]).with(number, &[0x0200]);
        bench.go().holds(0x0208, &[1, 2]);
    }
    on(&[0x9630, 0x0200]).with(3, &[1, 2]).go().holds(0x0200, &[1, 2]);
    on(&[0x96F1, 0x0200]).with(15, &[1, 2]).with(1, &[4]).go().holds(0x0204, &[1, 2]);
    on(&[0x9830, 0x0200])
        .with(3, &[1, 2])
        .memory(0x0200, &[0xFFFF])
        .go()
        .holds(0xFFFF, &[1])
        .holds(0, &[2]);
    let indexed = on(&[0x9831, 0x0200]).with(3, &[1, 2]).with(1, &[1]).memory(0x0201, &[0x0300]);
    indexed.go().holds(0x0300, &[1, 2]);
}

#[test]
fn store_through_mask() {
    let bench = |code| on(&[code, 0x0200]).with(3, &[0xAAAA, 0xFF00]);
    bench(0x9730).memory(0x0200, &[0x5555]).go().holds(0x0200, &[0xAA55]);
    bench(0x9731).with(1, &[1]).memory(0x0201, &[0xFFFF]).go().holds(0x0201, &[0xAAFF]);
    let wrapped = on(&[0x97F0, 0x0200]).with(15, &[0xAAAA, 0x00FF]).memory(0x0200, &[0x5555]);
    wrapped.go().holds(0x0200, &[0x55AA]);
}

#[test]
fn store_multiple() {
    let words: [u16; 16] = std::array::from_fn(|number| 0x8000 | number as u16);
    for n in 0..16usize {
        let bench = on(&[0x9900 | (n as u16) << 4, 0x0200]).with(0, &words).sw(0x4000).go();
        bench.holds(0x0200, &words[..=n]).holds(0x0201 + n as u16, &[0]).fine(0b0100, 0);
    }
    let indexed = on(&[0x9931, 0x0200]).with(0, &[1, 8, 3, 4]).go();
    indexed.holds(0x0208, &[1, 8, 3, 4]);
}

#[test]
fn extended_store() {
    on(&[0x9AE0, 0x0200]).with(14, &[1, 2, 3]).go().holds(0x0200, &[1, 2, 3]);
    on(&[0x9A31, 0x0200]).with(1, &[1]).with(3, &[1, 2, 3]).go().holds(0x0201, &[1, 2, 3]);
}

#[test]
fn byte_stores() {
    let bench = |code, rx: u16| {
        on(&[code, 0x0200]).with(1, &[rx]).with(3, &[0xABCD]).memory(0x0200 + rx, &[0x1234])
    };
    bench(0x9B30, 0).go().holds(0x0200, &[0xCD34]);
    bench(0x9B31, 1).go().holds(0x0201, &[0xCD34]);
    bench(0x9C30, 0).go().holds(0x0200, &[0x12CD]);
    bench(0x9C31, 1).go().holds(0x0201, &[0x12CD]);
    let far = |code, rx| bench(code, rx).memory(0x1234, &[0x5678]).go();
    far(0x9D30, 0).holds(0x1234, &[0xCD78]);
    far(0x9D31, 1).holds(0x1234, &[0xCD78]);
    far(0x9E30, 0).holds(0x1234, &[0x56CD]);
    far(0x9E31, 1).holds(0x1234, &[0x56CD]).fine(0, 0);
}

#[test]
fn push_wraps_below_zero() {
    let bench = on(&[0x9F12]).with(1, &[7, 8]).with(15, &[1]).sw(0x4000).go();
    bench.holds(0, &[8]).holds(0xFFFF, &[7]).has(15, &[0xFFFF]).fine(0b0100, 0);
}
