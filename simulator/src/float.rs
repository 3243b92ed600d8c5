//! Floats of both widths on exact whole numbers: one code, the width a parameter.
//!
//! A float is its mantissa, a whole number of `width.bits` bits read as a fraction with one bit
//! before the point, times two to the power of the exponent (4.1.5, 4.1.6).

use crate::state::{FLOAT_OVERFLOW, FLOAT_UNDERFLOW};
use std::cmp::Ordering;

/// One of the two widths of floats.
#[derive(Clone, Copy, Debug, PartialEq, Eq)]
pub struct Width {
    /// Bits of the mantissa, the sign included.
    pub bits: u32,
    /// Words that a float takes.
    pub words: usize,
}

/// 32 bits: a mantissa of 24 (4.1.5).
pub const SINGLE: Width = Width { bits: 24, words: 2 };
/// 48 bits: a mantissa of 40 (4.1.6).
pub const EXTENDED: Width = Width { bits: 40, words: 3 };

/// The largest exponent, 7F.
const HIGHEST: i32 = 127;
/// The smallest exponent, 80.
const LOWEST: i32 = -128;

/// A mantissa and an exponent.
#[derive(Clone, Copy, Debug, PartialEq, Eq)]
pub struct Float {
    pub mantissa: i128,
    pub exponent: i32,
}

/// The float zero.
const ZERO: Float = Float { mantissa: 0, exponent: 0 };

/// A result and the bits that it sets in PI.
#[derive(Clone, Copy, Debug, PartialEq, Eq)]
pub struct Outcome {
    pub value: Float,
    pub pending: u16,
}

impl Width {
    /// The mantissa of 1.0, which itself does not fit.
    fn one(self) -> i128 {
        1 << (self.bits - 1)
    }

    /// Whether a mantissa fits the width.
    fn holds(self, mantissa: i128) -> bool {
        -self.one() <= mantissa && mantissa < self.one()
    }
}

impl Float {
    /// Reads a float from its words; the third counts for the extended width alone.
    pub fn unpack(words: [u16; 3], width: Width) -> Float {
        let upper = (i128::from(words[0] as i16) << 8) | i128::from(words[1] >> 8);
        let mantissa = match width {
            EXTENDED => (upper << 16) | i128::from(words[2]),
            _ => upper,
        };
        Float { mantissa, exponent: i32::from(words[1] as i8) }
    }

    /// Writes a float to words; the third is used by the extended width alone.
    pub fn pack(self, width: Width) -> [u16; 3] {
        let upper = self.mantissa >> (width.bits - 24);
        let exponent = self.exponent as u16 & 0xFF;
        [(upper >> 8) as u16, ((upper << 8) as u16) | exponent, self.mantissa as u16]
    }
}

/// A result without an event.
fn plain(value: Float) -> Outcome {
    Outcome { value, pending: 0 }
}

/// 4.1.7: overflow gives the largest positive or the smallest negative number.
fn overflow(negative: bool, width: Width) -> Outcome {
    let mantissa = if negative { -width.one() } else { width.one() - 1 };
    Outcome { value: Float { mantissa, exponent: HIGHEST }, pending: FLOAT_OVERFLOW }
}

/// 4.1.7: underflow gives zero.
fn underflow() -> Outcome {
    Outcome { value: ZERO, pending: FLOAT_UNDERFLOW }
}

/// Underflow where the exponent has fallen too low, otherwise the value.
fn not_too_small(value: Float) -> Outcome {
    if value.exponent < LOWEST {
        underflow()
    } else {
        plain(value)
    }
}

/// 4.1.5: shifted left until the sign and the next bit differ; a zero mantissa gives zero.
pub fn normalised(value: Float, width: Width) -> Float {
    if value.mantissa == 0 {
        return ZERO;
    }
    let mut value = value;
    while width.holds(2 * value.mantissa) {
        value.mantissa *= 2;
        value.exponent -= 1;
    }
    value
}

/// An arithmetic right shift by any distance; lost bits are dropped.
fn shifted_right(mantissa: i128, distance: i32) -> i128 {
    mantissa >> distance.min(127)
}

/// 5.60, 5.61: both mantissas at one exponent; a zero mantissa leaves the other as it is.
fn aligned(a: Float, o: Float) -> (i128, i128, i32) {
    let distance = a.exponent - o.exponent;
    if a.mantissa == 0 && o.mantissa != 0 {
        (0, o.mantissa, o.exponent)
    } else if o.mantissa == 0 {
        (a.mantissa, 0, a.exponent)
    } else if distance >= 0 {
        (a.mantissa, shifted_right(o.mantissa, distance), a.exponent)
    } else {
        (shifted_right(a.mantissa, -distance), o.mantissa, o.exponent)
    }
}

/// 5.60, 5.61, 5.68, 5.69: the end of add and subtract, from the exact sum of the mantissas.
fn combined(mantissa: i128, exponent: i32, width: Width) -> Outcome {
    let mut value = Float { mantissa, exponent };
    if !width.holds(mantissa) {
        value = Float { mantissa: mantissa >> 1, exponent: exponent + 1 };
    }
    if value.exponent > HIGHEST {
        return overflow(value.mantissa < 0, width);
    }
    not_too_small(normalised(value, width))
}

/// 5.60 FA, 5.61 EFA.
pub fn sum(a: Float, o: Float, width: Width) -> Outcome {
    let (left, right, exponent) = aligned(a, o);
    combined(left + right, exponent, width)
}

/// 5.68 FS, 5.69 EFS.
pub fn difference(a: Float, o: Float, width: Width) -> Outcome {
    let (left, right, exponent) = aligned(a, o);
    combined(left - right, exponent, width)
}

/// 5.74 FM, 5.75 EFM: the exact product, normalised and cut off below (4.1.8).
pub fn product(a: Float, o: Float, width: Width) -> Outcome {
    let mut n = a.exponent + o.exponent;
    if n > HIGHEST {
        return overflow((a.mantissa < 0) != (o.mantissa < 0), width);
    }
    if n < LOWEST {
        return underflow();
    }
    let double = Width { bits: 2 * width.bits, words: 0 };
    let mut mantissa = 2 * a.mantissa * o.mantissa;
    if mantissa == double.one() {
        n += 1;
        mantissa /= 2;
    }
    if n > HIGHEST {
        return overflow(mantissa < 0, width);
    }
    let exact = normalised(Float { mantissa, exponent: n }, double);
    not_too_small(Float { mantissa: exact.mantissa >> width.bits, ..exact })
}

/// 5.79 FD, 5.80 EFD: the exact quotient, normalised and cut off below (4.1.8).
pub fn quotient(a: Float, o: Float, width: Width) -> Outcome {
    let n = a.exponent - o.exponent;
    if o.mantissa == 0 || n > HIGHEST {
        return overflow((a.mantissa < 0) != (o.mantissa < 0), width);
    }
    if n < LOWEST {
        return underflow();
    }
    let mut exact = Fraction { top: a.mantissa * o.mantissa.signum(), bottom: o.mantissa.abs(), n };
    if exact.top.abs() >= exact.bottom {
        exact.halve();
    }
    if exact.n > HIGHEST {
        return overflow(exact.top < 0, width);
    }
    exact.normalise();
    if exact.n > HIGHEST {
        return overflow(exact.top < 0, width);
    }
    not_too_small(Float { mantissa: exact.mantissa(width), exponent: exact.n })
}

/// An exact quotient `top / bottom` times two to the power `n`; `bottom` is positive.
struct Fraction {
    top: i128,
    bottom: i128,
    n: i32,
}

impl Fraction {
    /// Shifts right by one position, nothing lost.
    fn halve(&mut self) {
        self.bottom *= 2;
        self.n += 1;
    }

    /// Shifts left by one position.
    fn double(&mut self) {
        self.top *= 2;
        self.n -= 1;
    }

    /// Brings the quotient into -1.0 to below -0.5 or 0.5 to below 1.0; zero becomes float zero.
    fn normalise(&mut self) {
        if self.top == 0 {
            self.n = 0;
            return;
        }
        while self.top < -self.bottom || self.top >= self.bottom {
            self.halve();
        }
        while -self.bottom <= 2 * self.top && 2 * self.top < self.bottom {
            self.double();
        }
    }

    /// The mantissa, cut off toward negative infinity.
    fn mantissa(&self, width: Width) -> i128 {
        (self.top * width.one()).div_euclid(self.bottom)
    }
}

/// 5.70 FNEG: powers of two change their exponent, any other mantissa its sign.
pub fn negated(o: Float, width: Width) -> Outcome {
    let half = width.one() / 2;
    if o.mantissa == -width.one() {
        return raised_power(o, width);
    }
    if o.mantissa == half {
        return not_too_small(Float { mantissa: -width.one(), exponent: o.exponent - 1 });
    }
    plain(Float { mantissa: -o.mantissa, exponent: o.exponent })
}

/// 5.62 FABS: the negative of a negative mantissa, any other unchanged.
pub fn absolute(o: Float, width: Width) -> Outcome {
    if o.mantissa == -width.one() {
        raised_power(o, width)
    } else {
        plain(Float { mantissa: o.mantissa.abs(), exponent: o.exponent })
    }
}

/// 5.62, 5.70: the negative of -1.0 is 0.5 with the next exponent.
fn raised_power(o: Float, width: Width) -> Outcome {
    if o.exponent == HIGHEST {
        return overflow(false, width);
    }
    plain(Float { mantissa: width.one() / 2, exponent: o.exponent + 1 })
}

/// 5.94 FC, 5.95 EFC: by exact value.
pub fn compared(a: Float, o: Float) -> Ordering {
    // Beyond 64 places a nonzero mantissa outweighs any other, so that 64 are enough.
    let distance = (a.exponent - o.exponent).clamp(-64, 64);
    if distance >= 0 {
        (a.mantissa << distance).cmp(&o.mantissa)
    } else {
        a.mantissa.cmp(&(o.mantissa << -distance))
    }
}

/// 5.85 FIX, 5.87 EFIX: the integer portion toward zero, none above the exponent `highest`.
pub fn fixed(o: Float, highest: i32, width: Width) -> Option<i128> {
    if o.exponent > highest {
        return None;
    }
    // Beyond 64 places nothing is left of a mantissa of 40 bits.
    let distance = (width.bits as i32 - 1 - o.exponent).min(64);
    Some(o.mantissa / (1 << distance))
}

/// 5.86 FLT, 5.88 EFLT: an integer of `bits` bits, normalised.
pub fn floated(value: i128, bits: u32, width: Width) -> Float {
    let mantissa = value << (width.bits - bits);
    normalised(Float { mantissa, exponent: bits as i32 - 1 }, width)
}
