//! Worked examples of the standard: tables I to IV, VII and VIII, the shift and stack examples.

use crate::bench::{on, Bench};
use simulator::{Float, EXTENDED, SINGLE};

/// Table I: values and their words.
pub const TABLE_1: [(i32, u16); 12] = [
    (32767, 0x7FFF),
    (16384, 0x4000),
    (4096, 0x1000),
    (2, 0x0002),
    (1, 0x0001),
    (0, 0x0000),
    (-1, 0xFFFF),
    (-2, 0xFFFE),
    (-4096, 0xF000),
    (-16384, 0xC000),
    (-32767, 0x8001),
    (-32768, 0x8000),
];

/// Table II: values and their double words.
pub const TABLE_2: [(i64, u32); 10] = [
    (2_147_483_647, 0x7FFF_FFFF),
    (1_073_741_824, 0x4000_0000),
    (2, 0x0000_0002),
    (1, 0x0000_0001),
    (0, 0x0000_0000),
    (-1, 0xFFFF_FFFF),
    (-2, 0xFFFF_FFFE),
    (-1_073_741_824, 0xC000_0000),
    (-2_147_483_647, 0x8000_0001),
    (-2_147_483_648, 0x8000_0000),
];

/// The last bit of a mantissa of 24 bits.
const LAST: f64 = 1.0 / 8_388_608.0;
/// Table III: mantissas, exponents and the words of both.
pub const TABLE_3: [(f64, i32, [u16; 2]); 11] = [
    (1.0 - LAST, 127, [0x7FFF, 0xFF7F]),
    (0.5, 127, [0x4000, 0x007F]),
    (0.625, 4, [0x5000, 0x0004]),
    (0.5, 1, [0x4000, 0x0001]),
    (0.5, 0, [0x4000, 0x0000]),
    (0.5, -1, [0x4000, 0x00FF]),
    (0.5, -128, [0x4000, 0x0080]),
    (0.0, 0, [0x0000, 0x0000]),
    (-1.0, 0, [0x8000, 0x0000]),
    (-0.5 - LAST, -128, [0xBFFF, 0xFF80]),
    (-0.75 - LAST, 4, [0x9FFF, 0xFF04]),
];

/// Table IV, likewise.
pub const TABLE_4: [(f64, i32, [u16; 3]); 10] = [
    (0.5, 127, [0x4000, 0x007F, 0]),
    (0.5, 0, [0x4000, 0x0000, 0]),
    (0.5, -1, [0x4000, 0x00FF, 0]),
    (0.5, -128, [0x4000, 0x0080, 0]),
    (-1.0, 127, [0x8000, 0x007F, 0]),
    (-1.0, 0, [0x8000, 0x0000, 0]),
    (-1.0, -1, [0x8000, 0x00FF, 0]),
    (-1.0, -128, [0x8000, 0x0080, 0]),
    (0.0, 0, [0x0000, 0x0000, 0]),
    (-0.75, -1, [0xA000, 0x00FF, 0]),
];

#[test]
fn table_1_single_words() {
    for (value, word) in TABLE_1 {
        let condition = [1, 2, 4][(value.signum() + 1) as usize];
        on(&[0x8110]).with(0, &[word]).go().has(1, &[word]).fine(condition, 0);
        // Multiplied by 1 to a double word: the same value, wider.
        let wide = value as u32;
        let product = on(&[0xC501]).with(0, &[word, 1]).go();
        product.has(0, &[(wide >> 16) as u16, wide as u16]).fine(condition, 0);
    }
}

#[test]
fn table_2_double_words() {
    for (value, word) in TABLE_2 {
        assert_eq!(i64::from(word as i32), value);
        let condition = [1, 2, 4][(value.signum() + 1) as usize];
        let words = [(word >> 16) as u16, word as u16];
        on(&[0x8720]).with(0, &words).go().has(2, &words).fine(condition, 0);
    }
}

/// The value of a float as a fraction: mantissa over two to the power of 23 or 39.
fn value(float: Float, bits: u32) -> f64 {
    float.mantissa as f64 / f64::powi(2.0, bits as i32 - 1) * f64::powi(2.0, float.exponent)
}

#[test]
fn table_3_floats() {
    for (mantissa, exponent, [upper, lower]) in TABLE_3 {
        let float = Float::unpack([upper, lower, 0], SINGLE);
        assert_eq!(float.exponent, exponent);
        assert_eq!(value(float, 24), mantissa * f64::powi(2.0, exponent));
        assert_eq!(float.pack(SINGLE)[..2], [upper, lower]);
    }
}

#[test]
fn table_4_extended_floats() {
    for (mantissa, exponent, words) in TABLE_4 {
        let float = Float::unpack(words, EXTENDED);
        assert_eq!(float.exponent, exponent);
        assert_eq!(value(float, 40), mantissa * f64::powi(2.0, exponent));
        assert_eq!(float.pack(EXTENDED), words);
    }
    let split = Float::unpack([0x1234, 0x5678, 0x9ABC], EXTENDED);
    assert_eq!((split.mantissa, split.exponent), (0x12_3456_9ABC, 0x78));
    assert_eq!(split.pack(EXTENDED), [0x1234, 0x5678, 0x9ABC]);
}

#[test]
fn table_7_locks_and_keys() {
    for lock in 0..16u16 {
        for key in 0..16u16 {
            let admitted = lock == 15 || key == 0 || key == lock;
            let bench = on(&[0x8010, 0x2000]).sw(key << 4).instruction_page(0, 0xF000);
            let bench = bench.operand_page(2, (lock << 12) | 2).go();
            bench.ft(if admitted { 0 } else { 0x8000 });
        }
    }
}

#[test]
fn table_8_vectors() {
    for number in 0..16u16 {
        let mut bench = Bench::sized(4096);
        bench.state.pi = 0x8000 >> number;
        bench.state.mk = 0xFFFF;
        bench.state.enabled = true;
        bench.state.ic = 0x0777;
        let bench = bench.memory(0x20 + 2 * number, &[0x0200, 0x0300]);
        let bench = bench.memory(0x0300, &[1, 2, 3]).go();
        bench.holds(0x0200, &[0xFFFF, 0, 0x0777]).ic(3).pi(0);
    }
}

#[test]
fn shift_examples() {
    // sabc defg hijk lmnp with N = 4.
    let single = |code| on(&[code]).with(5, &[0x9ABC]).go();
    single(0x6035).has(5, &[0xABC0]);
    single(0x6135).has(5, &[0x09AB]);
    single(0x6235).has(5, &[0xF9AB]);
    single(0x6335).has(5, &[0xABC9]);
    let double = |code| on(&[code]).with(5, &[0x9ABC, 0xDEF1]).go();
    double(0x6535).has(5, &[0xABCD, 0xEF10]);
    double(0x6635).has(5, &[0x09AB, 0xCDEF]);
    double(0x6735).has(5, &[0xF9AB, 0xCDEF]);
    double(0x6835).has(5, &[0xABCD, 0xEF19]);
}

#[test]
fn push_examples() {
    let registers: [u16; 16] = std::array::from_fn(|number| 0x0A00 + number as u16);
    let bench = on(&[0x9F35]).with(0, &registers).with(15, &[0x0800]).go();
    bench.holds(0x07FC, &[0, 0x0A03, 0x0A04, 0x0A05, 0]).has(15, &[0x07FD]).ft(0);
    let bench = on(&[0x9FE2]).with(0, &registers).with(15, &[0x0800]).go();
    let stored = [0, 0x0A0E, 0x07FC, 0x0A00, 0x0A01, 0x0A02, 0];
    bench.holds(0x07FA, &stored).has(15, &[0x07FB]).ft(0);
}

#[test]
fn pop_gives_back_what_push_stored() {
    let registers: [u16; 16] = std::array::from_fn(|number| 0x0A00 + number as u16);
    for a in 0..16u16 {
        for b in 0..16u16 {
            let fields = (a << 4) | b;
            let code = [0x9F00 | fields, 0x8F00 | fields];
            let bench = on(&code).with(0, &registers).with(15, &[0x0800]).go();
            let bench = bench.with(0, &[0; 15]).go().has(15, &[0x0800]).ft(0);
            for number in 0..15u16 {
                let within =
                    if a <= b { a <= number && number <= b } else { number >= a || number <= b };
                let value = if within { 0x0A00 + number } else { 0 };
                assert_eq!(bench.state.r[usize::from(number)], value);
            }
        }
    }
}

#[test]
fn special_case_of_the_long_multiply() {
    on(&[0xC501]).with(0, &[0x8000, 0x8000]).go().has(0, &[0x4000, 0x0000]).fine(0b0100, 0);
}
