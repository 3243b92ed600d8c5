//! Shifts of one and two words as plain functions on a value of `bits` bits, 16 or 32.

/// The three manners of shifting.
#[derive(Clone, Copy, PartialEq, Eq)]
pub(crate) enum Manner {
    Logical,
    Arithmetic,
    Cyclic,
}

/// Shifted left, zeros entering (5.10, 5.14).
pub(crate) fn left(value: u32, count: u32, bits: u32) -> u32 {
    let kept = (1u64 << bits) - 1;
    ((u64::from(value) << count) & kept) as u32
}

/// Shifted right, zeros entering (5.11, 5.15).
pub(crate) fn right(value: u32, count: u32) -> u32 {
    (u64::from(value) >> count) as u32
}

/// Shifted right, copies of the sign entering (5.12, 5.16).
pub(crate) fn right_with_sign(value: u32, count: u32, bits: u32) -> u32 {
    let kept = (1u64 << bits) - 1;
    let signed = ((u64::from(value) << (64 - bits)) as i64) >> (64 - bits);
    ((signed >> count) as u64 & kept) as u32
}

/// Shifted left in a circle (5.13, 5.17).
pub(crate) fn cyclic(value: u32, count: u32, bits: u32) -> u32 {
    let count = count % bits;
    left(value, count, bits) | right(value, bits - count)
}

/// Whether the sign changes at any single position of a left shift (5.19, 5.22).
fn sign_changes(value: u32, count: u32, bits: u32) -> bool {
    let sign = |shifted: u32| left(value, shifted, bits) >> (bits - 1);
    (0..count).any(|done| sign(done) != sign(done + 1))
}

/// 5.18 to 5.23: to the left by a positive count, to the right by a negative one.
///
/// The mark tells of fixed point overflow; a count out of range shifts nothing.
pub(crate) fn by_count(value: u32, count: i16, manner: Manner, bits: u32) -> (u32, bool) {
    let distance = u32::from(count.unsigned_abs());
    if distance > bits {
        return (value, true);
    }
    let leftward = count >= 0;
    match manner {
        Manner::Logical if leftward => (left(value, distance, bits), false),
        Manner::Logical => (right(value, distance), false),
        Manner::Arithmetic if leftward => {
            (left(value, distance, bits), sign_changes(value, distance, bits))
        }
        Manner::Arithmetic => (right_with_sign(value, distance, bits), false),
        Manner::Cyclic if leftward => (cyclic(value, distance, bits), false),
        Manner::Cyclic => (cyclic(value, bits - distance, bits), false),
    }
}
