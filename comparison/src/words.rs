//! Random words: borders of the number ranges, addresses at page edges, floats of all kinds.

use crate::numbers::Numbers;

/// Words at borders of the number ranges.
const BORDERS: [u16; 20] = [
    0x0000, 0x0001, 0x0002, 0x000F, 0x0010, 0x001F, 0x0020, 0x007F, 0x0080, 0x00FF, 0x0FFF, 0x3FFF,
    0x4000, 0x7FFE, 0x7FFF, 0x8000, 0x8001, 0xBFFF, 0xC000, 0xFFFF,
];

/// First two words of floats at borders of the float range, or not normalised.
const FLOAT_BORDERS: [[u16; 2]; 16] = [
    [0x7FFF, 0xFF7F],
    [0x8000, 0x007F],
    [0x4000, 0x0080],
    [0x8000, 0x0080],
    [0xBFFF, 0xFF80],
    [0x4000, 0x007F],
    [0x4000, 0x0000],
    [0x8000, 0x0000],
    [0xC000, 0x0000],
    [0xFFFF, 0xFF00],
    [0x0000, 0x0100],
    [0x0000, 0x0000],
    [0x0000, 0x007F],
    [0x0000, 0x0080],
    [0xC000, 0x007F],
    [0x6000, 0x0000],
];

/// A word that is often at a border or small.
pub fn edge(numbers: &mut Numbers) -> u16 {
    match numbers.below(8) {
        0..=3 => numbers.pick(&BORDERS),
        4 => numbers.small(72).wrapping_sub(36),
        _ => numbers.word(),
    }
}

/// A logical address: often at a page edge, at an end of the addresses, or among the vectors.
pub fn address(numbers: &mut Numbers) -> u16 {
    let page = numbers.small(16) << 12;
    match numbers.below(16) {
        0..=4 => page | (0x0FF0 + numbers.small(16)),
        5..=6 => page.wrapping_add(numbers.small(8)).wrapping_sub(4),
        7 => numbers.small(40).wrapping_sub(20),
        8 => 0x0020 + numbers.small(32),
        9 => LINKAGE + numbers.small(4 * 16),
        _ => page | numbers.small(0x1000),
    }
}

/// Where the linkage areas stand in page 0, four words for each interrupt.
pub const LINKAGE: u16 = 0x0100;

/// The three words of a float; the first two are one of the narrower width.
pub fn float(numbers: &mut Numbers) -> [u16; 3] {
    let third = numbers.word();
    let third = numbers.pick(&[0, 1, 0x8000, 0xFFFF, third, third]);
    let word = numbers.word();
    let [upper, lower] = match numbers.below(8) {
        0 => numbers.pick(&FLOAT_BORDERS),
        1 => [numbers.word(), numbers.word()],
        2 => [numbers.pick(&[0, 0xFFFF]), word & 0xFF00 | exponent(numbers)],
        3 => [numbers.pick(&BORDERS), numbers.pick(&[0, 0x0100, 0xFF00]) | exponent(numbers)],
        _ => [normalised(numbers), (word & 0xFF00) | exponent(numbers)],
    };
    [upper, lower, third]
}

/// A first word whose first two bits differ.
fn normalised(numbers: &mut Numbers) -> u16 {
    (numbers.word() & 0x3FFF) | numbers.pick(&[0x4000, 0x8000])
}

/// An exponent: mostly near 0, so that sums overlap, or near an end of its range.
fn exponent(numbers: &mut Numbers) -> u16 {
    let exponent = match numbers.below(8) {
        0..=3 => numbers.small(48).wrapping_sub(24),
        4 => 0x7F_u16.wrapping_sub(numbers.small(4)),
        5 => 0x80 + numbers.small(4),
        6 => numbers.small(8).wrapping_add(0x3C).wrapping_mul(numbers.pick(&[1, 0xFFFF])),
        _ => numbers.word(),
    };
    exponent & 0xFF
}

/// Words akin to others: the same, a neighbour, the negative, or a float at a border with it.
pub fn akin(numbers: &mut Numbers, words: [u16; 3]) -> [u16; 3] {
    let [first, second, third] = words;
    let double = (u32::from(first) << 16) | u32::from(second);
    let near = numbers.pick(&[1, 0xFFFF_FFFF]);
    match numbers.below(8) {
        0 => words,
        1 => [first.wrapping_add(near as u16), second, third],
        2 => [first.wrapping_neg(), second.wrapping_neg(), third],
        3 | 4 => {
            let value = if numbers.once_in(2) { double.wrapping_neg() } else { double };
            let value = value.wrapping_add(numbers.pick(&[0, near]));
            [(value >> 16) as u16, value as u16, third]
        }
        _ => akin_float(numbers, words),
    }
}

/// A float whose mantissa is another's, its negative, half or double, at a distance that matters.
fn akin_float(numbers: &mut Numbers, [first, second, third]: [u16; 3]) -> [u16; 3] {
    let wide = numbers.once_in(2);
    let mantissa = (u64::from(first) << 48) | (u64::from(second & 0xFF00) << 32);
    let mantissa = (mantissa | if wide { u64::from(third) << 24 } else { 0 }) as i64;
    let other = mantissa.wrapping_neg();
    let mantissa = numbers.pick(&[mantissa, other, mantissa, other, mantissa >> 1, mantissa << 1]);
    let upper = mantissa as u64 >> 40;
    let distance = numbers.pick(&[0_u16, 1, 23, 24, 39, 40, 125, 126, 127, 128, 129, 130]);
    let distance = if numbers.once_in(2) { distance } else { distance.wrapping_neg() };
    let exponent = second.wrapping_mul(numbers.pick(&[1, 0xFFFF])).wrapping_add(distance);
    let last = if wide { (mantissa >> 24) as u16 } else { third };
    [(upper >> 8) as u16, ((upper << 8) as u16) | (exponent & 0xFF), last]
}

/// Mantissas at their limits: -1.0 most often, 0.5, the largest, the first below -0.5, and the
/// smallest of both signs, which are not normalised.
const MANTISSAS: [[u16; 3]; 8] = [
    [0x8000, 0x0000, 0x0000],
    [0x8000, 0x0000, 0x0000],
    [0x8000, 0x0000, 0x0000],
    [0x4000, 0x0000, 0x0000],
    [0x7FFF, 0xFF00, 0xFFFF],
    [0xBFFF, 0xFF00, 0xFFFF],
    [0x0000, 0x0100, 0x0001],
    [0xFFFF, 0xFF00, 0xFFFF],
];

/// Two floats with mantissas at their limits, the sum or the difference of their exponents at an
/// end of the range or next to it: 126 to 129, which modulo 256 is -130 to -127.
pub fn limits(numbers: &mut Numbers) -> [[u16; 3]; 2] {
    let exponent = exponent(numbers);
    let end = numbers.pick(&[126, 127, 127, 128, 129]);
    let (sum, difference) = (end - exponent as i16, exponent as i16 - end);
    let other = numbers.pick(&[sum, difference]) as u16 & 0xFF;
    [exponent, other].map(|exponent| {
        let [first, second, third] = numbers.pick(&MANTISSAS);
        [first, second | exponent, third]
    })
}

/// Two words whose sign changes at the first, the second or the last position of a shift, or never.
pub fn signs(numbers: &mut Numbers) -> [u16; 2] {
    let any = [numbers.word(), numbers.word()];
    numbers.pick(&[[0xFFFF; 2], [0xFFFF; 2], [0, 0], [0, 1], [0x8000, 0], [0xC000, 0], any, any])
}

/// The count of a shift: at a limit of 16 or 32 positions, one less or one more, to either side.
pub fn count(numbers: &mut Numbers) -> u16 {
    let count = numbers.pick(&[0, 1, 4, 15, 16, 17, 31, 32, 33]);
    numbers.pick(&[count, count.wrapping_neg()])
}

/// A status word: any CS, key 0 half of the time, the lower address states.
pub fn status(numbers: &mut Numbers) -> u16 {
    let condition = numbers.pick(&[0x1000, 0x2000, 0x4000, 0x9000, 0xA000, 0xC000, 0, 0x8000]);
    let any = numbers.small(16);
    let key = numbers.pick(&[0, 0, 0, 0, 1, 2, 3, any]);
    let group = numbers.pick(&[0, 0, 0, 1, 1, 2, 3, any]);
    let reserved = if numbers.once_in(8) { numbers.word() & 0x0F00 } else { 0 };
    condition | reserved | (key << 4) | group
}

/// A memory fault status: 0000, one that a refusal writes, or any word, with reserved bits.
pub fn fault_status(numbers: &mut Numbers) -> u16 {
    match numbers.below(4) {
        0 => 0,
        1 | 2 => (numbers.small(16) << 12) | (numbers.small(2) << 4) | numbers.small(16),
        _ => numbers.word(),
    }
}

/// Pending interrupts: none, one, some or all.
pub fn pending(numbers: &mut Numbers) -> u16 {
    match numbers.below(8) {
        0..=3 => 0,
        4 | 5 => 0x8000 >> numbers.below(16),
        6 => 0xFFFF,
        _ => numbers.word(),
    }
}

/// An interrupt mask: mostly with the machine error, so that a fault is entered.
pub fn mask(numbers: &mut Numbers) -> u16 {
    let any = numbers.word();
    let mask = numbers.pick(&[0, 0xFFFF, any, any]);
    mask | if numbers.once_in(4) { 0 } else { 0x4000 }
}
