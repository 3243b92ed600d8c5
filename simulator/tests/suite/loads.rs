//! Load instructions (5.38 to 5.44) in every addressing mode.

use crate::bench::on;

#[test]
fn single_load() {
    on(&[0x8132]).with(2, &[0x8000]).go().has(3, &[0x8000]).fine(0b0001, 0).ic(0x0101);
    for base in 0..4u16 {
        let bench = on(&[(base << 8) | 0xFF]).with(12 + usize::from(base), &[0x0200]);
        bench.memory(0x02FF, &[7]).go().has(2, &[7]).fine(0b0100, 0).ic(0x0101);
        let bench = on(&[0x4001 | (base << 8)]).with(12 + usize::from(base), &[0x0200]);
        bench.with(1, &[0xFFFF]).memory(0x01FF, &[7]).go().has(2, &[7]).fine(0b0100, 0);
    }
    on(&[0x8230]).go().has(3, &[1]);
    on(&[0x833F]).go().has(3, &[0xFFF0]).fine(0b0001, 0);
    on(&[0x8030, 0x0200]).memory(0x0200, &[5]).go().has(3, &[5]).fine(0b0100, 0).ic(0x0102);
    on(&[0x8031, 0x0200]).with(1, &[0xFFFF]).memory(0x01FF, &[5]).go().has(3, &[5]);
    on(&[0x8530, 0x9ABC]).go().has(3, &[0x9ABC]).fine(0b0001, 0).ic(0x0102);
    on(&[0x8531, 0xFFFF]).with(1, &[1]).go().has(3, &[0]).fine(0b0010, 0);
    on(&[0x8430, 0x0200]).memory(0x0200, &[0x0300]).memory(0x0300, &[5]).go().has(3, &[5]);
    let indexed = on(&[0x8431, 0x0200]).with(1, &[1]).memory(0x0201, &[0x0300]);
    indexed.memory(0x0300, &[5]).go().has(3, &[5]).fine(0b0100, 0);
}

#[test]
fn double_load() {
    on(&[0x8732]).with(2, &[0, 0x8000]).go().has(3, &[0, 0x8000]).fine(0b0100, 0);
    on(&[0x8723]).with(3, &[1, 2]).go().has(2, &[1, 2]);
    for base in 0..4u16 {
        let bench = on(&[0x0400 | (base << 8) | 1]).with(12 + usize::from(base), &[0x0200]);
        bench.memory(0x0201, &[0x8000, 2]).go().has(0, &[0x8000, 2]).fine(0b0001, 0);
        let bench = on(&[0x4012 | (base << 8)]).with(12 + usize::from(base), &[0x0200]);
        bench.with(2, &[4]).memory(0x0204, &[0, 0]).with(0, &[9, 9]).go().has(0, &[0, 0]).cs(2);
    }
    on(&[0x8630, 0x0200]).memory(0x0200, &[1, 2]).go().has(3, &[1, 2]).fine(0b0100, 0);
    on(&[0x86F1, 0x0200]).with(1, &[1]).memory(0x0201, &[1, 2]).go().has(15, &[1, 2]);
    on(&[0x8830, 0x0200]).memory(0x0200, &[0x0300]).memory(0x0300, &[1, 2]).go().has(3, &[1, 2]);
    let indexed = on(&[0x8831, 0x0200]).with(1, &[1]).memory(0x0201, &[0x0300]);
    indexed.memory(0x0300, &[0, 2]).go().has(3, &[0, 2]).fine(0b0100, 0);
}

#[test]
fn double_load_wraps_round_the_memory() {
    let bench = on(&[0x8630, 0xFFFF]).memory(0xFFFF, &[0x1111]).memory(0, &[0x2222]);
    bench.go().has(3, &[0x1111, 0x2222]);
}

#[test]
fn load_multiple() {
    let words: [u16; 16] = std::array::from_fn(|number| 0x8000 | number as u16);
    for n in 0..16usize {
        let code = [0x8900 | (n as u16) << 4, 0x0200];
        let bench = on(&code).memory(0x0200, &words).sw(0x4000).go().has(0, &words[..=n]);
        bench.has(n + 1, &vec![0; 15 - n]).fine(0b0100, 0);
    }
    let indexed = on(&[0x89F1, 0x0200]).with(1, &[0x10]).memory(0x0210, &words);
    indexed.go().has(0, &words);
}

#[test]
fn extended_load() {
    let bench = |words: &[u16; 3]| on(&[0x8A30, 0x0200]).memory(0x0200, words).go().has(3, words);
    bench(&[0x4000, 0x0012, 0x3456]).fine(0b0100, 0);
    bench(&[0x8000, 0, 0]).fine(0b0001, 0);
    bench(&[0, 0x0012, 0]).fine(0b0010, 0);
    bench(&[0, 0, 1]).fine(0b0100, 0);
    bench(&[0, 0x0100, 0]).fine(0b0100, 0);
    on(&[0x8AE1, 0x0200]).with(1, &[2]).memory(0x0202, &[1, 2, 3]).go().has(14, &[1, 2, 3]);
}

#[test]
fn byte_loads() {
    let bench = |code| on(&[code, 0x0200]).with(3, &[0x7700]).memory(0x0200, &[0xAB00]);
    bench(0x8B30).go().has(3, &[0x77AB]).fine(0b0100, 0);
    bench(0x8C30).go().has(3, &[0x7700]).fine(0b0100, 0);
    on(&[0x8B31, 0x01FF]).with(1, &[1]).memory(0x0200, &[0x00AB]).go().has(3, &[0]).cs(2);
    on(&[0x8C31, 0x01FF]).with(1, &[1]).memory(0x0200, &[0x12AB]).go().has(3, &[0xAB]).cs(4);
    let indirect = |code, rx| {
        let start = on(&[code, 0x0200]).with(3, &[0x8000]).with(1, &[rx]);
        start.memory(0x0200 + rx, &[0x0300]).memory(0x0300, &[0xABCD]).go()
    };
    indirect(0x8D30, 0).has(3, &[0x80AB]).fine(0b0001, 0);
    indirect(0x8D31, 5).has(3, &[0x80AB]).fine(0b0001, 0);
    indirect(0x8E30, 0).has(3, &[0x80CD]).fine(0b0001, 0);
    indirect(0x8E31, 5).has(3, &[0x80CD]).fine(0b0001, 0);
}

#[test]
fn pop_multiple() {
    let words = [1, 2, 3, 4, 5, 6];
    let bench = on(&[0x8F35]).with(15, &[0x0800]).memory(0x0800, &words).sw(0x4000).go();
    bench.has(2, &[0, 1, 2, 3, 0]).has(15, &[0x0803]).fine(0b0100, 0);
    let bench = on(&[0x8FE2]).with(15, &[0x0800]).memory(0x0800, &words).go();
    bench.has(14, &[1, 0x0805, 3, 4, 5, 0]);
    let bench = on(&[0x8F33]).with(15, &[0xFFFF]).memory(0xFFFF, &[9]).go();
    bench.has(3, &[9]).has(15, &[0]);
}
