//! Fixed point arithmetic of one and two words as plain functions.

/// A sum or difference with its carry and overflow.
pub(crate) struct Total<T> {
    pub(crate) value: T,
    pub(crate) carry: bool,
    pub(crate) overflow: bool,
}

/// A quotient and its remainder, with overflow.
pub(crate) struct Divided {
    pub(crate) quotient: u16,
    pub(crate) remainder: u16,
    pub(crate) overflow: bool,
}

/// 5.55, 5.56: the sum of two words.
pub(crate) fn single_sum(a: u16, o: u16) -> Total<u16> {
    let (value, carry) = a.overflowing_add(o);
    let (_, overflow) = (a as i16).overflowing_add(o as i16);
    Total { value, carry, overflow }
}

/// 5.59: the sum of two double words.
pub(crate) fn double_sum(a: u32, o: u32) -> Total<u32> {
    let (value, carry) = a.overflowing_add(o);
    let (_, overflow) = (a as i32).overflowing_add(o as i32);
    Total { value, carry, overflow }
}

/// 5.63, 5.64: the difference of two words; carry means no borrow.
pub(crate) fn single_difference(a: u16, o: u16) -> Total<u16> {
    let (value, borrow) = a.overflowing_sub(o);
    let (_, overflow) = (a as i16).overflowing_sub(o as i16);
    Total { value, carry: !borrow, overflow }
}

/// 5.67: the difference of two double words; carry means no borrow.
pub(crate) fn double_difference(a: u32, o: u32) -> Total<u32> {
    let (value, borrow) = a.overflowing_sub(o);
    let (_, overflow) = (a as i32).overflowing_sub(o as i32);
    Total { value, carry: !borrow, overflow }
}

/// 5.71: the product's lower word, and whether the product does not fit it.
pub(crate) fn short_product(a: u16, o: u16) -> (u16, bool) {
    let product = i32::from(a as i16) * i32::from(o as i16);
    (product as u16, i16::try_from(product).is_err())
}

/// 5.72: the whole product of two words.
pub(crate) fn long_product(a: u16, o: u16) -> u32 {
    (i32::from(a as i16) * i32::from(o as i16)) as u32
}

/// 5.73: the product's lower double word, and whether the product does not fit it.
pub(crate) fn double_product(a: u32, o: u32) -> (u32, bool) {
    let product = i64::from(a as i32) * i64::from(o as i32);
    (product as u32, i32::try_from(product).is_err())
}

/// 5.76: a word by a word, the quotient toward zero.
pub(crate) fn short_quotient(a: u16, o: u16) -> Divided {
    let overflow = o == 0 || (a == 0x8000 && o == 0xFFFF);
    divided(i64::from(a as i16), i64::from(o as i16), overflow)
}

/// 5.77: a double word by a word; overflow by the magnitude of the dividend's upper word.
pub(crate) fn long_quotient(a: u32, o: u16) -> Divided {
    let upper = ((a >> 16) as i16).unsigned_abs();
    let overflow = o == 0 || upper >= (o as i16).unsigned_abs();
    divided(i64::from(a as i32), i64::from(o as i16), overflow)
}

/// 4.1.4, 4.1.9: the lower words of quotient and remainder, both 0 for a zero divisor.
fn divided(dividend: i64, divisor: i64, overflow: bool) -> Divided {
    let quotient = dividend.checked_div(divisor).unwrap_or(0) as u16;
    let remainder = dividend.checked_rem(divisor).unwrap_or(0) as u16;
    Divided { quotient, remainder, overflow }
}

/// 5.78: a double word by a double word, and overflow.
pub(crate) fn double_quotient(a: u32, o: u32) -> (u32, bool) {
    if o == 0 {
        return (0, true);
    }
    let quotient = i64::from(a as i32) / i64::from(o as i32);
    (quotient as u32, i32::try_from(quotient).is_err())
}
