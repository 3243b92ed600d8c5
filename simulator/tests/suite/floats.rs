//! Floats of both widths (5.60 to 5.62, 5.68 to 5.70, 5.74, 5.75, 5.79, 5.80, 5.85 to 5.88, 5.94,
//! 5.95).

use crate::bench::{on, Bench, Numbers};
use simulator::floats::{compared, difference, product, quotient, sum};
use simulator::{Float, Outcome, Width, EXTENDED, SINGLE};

/// The opcodes of an operation of both widths; the register form is one above the direct one.
struct Forms {
    single: u16,
    extended: u16,
    base: u16,
    extension: u16,
}

const ADD: Forms = Forms { single: 0xA8, extended: 0xAA, base: 0x20, extension: 8 };
const SUBTRACT: Forms = Forms { single: 0xB8, extended: 0xBA, base: 0x24, extension: 9 };
const MULTIPLY: Forms = Forms { single: 0xC8, extended: 0xCA, base: 0x28, extension: 10 };
const DIVIDE: Forms = Forms { single: 0xD8, extended: 0xDA, base: 0x2C, extension: 11 };
const COMPARE: Forms = Forms { single: 0xF8, extended: 0xFA, base: 0x3C, extension: 13 };

/// Every form of an operation on R0 and the registers after it, two or three words long.
fn all_forms(forms: &Forms, left: [u16; 2], right: [u16; 2]) -> Vec<Bench> {
    let start = |code: &[u16]| on(code).with(0, &left).sw(0x8000);
    let memory = |code: &[u16]| start(code).memory(0x0240, &right).with(14, &[0x0200]);
    let direct = |opcode: u16| [opcode << 8, 0x0240];
    let indexed = |opcode: u16| [(opcode << 8) | 0xE, 0x0040];
    let register = |opcode: u16| start(&[((opcode + 1) << 8) | 5]).with(5, &right);
    vec![
        memory(&direct(forms.single)).go(),
        memory(&indexed(forms.single)).go(),
        register(forms.single).go(),
        memory(&direct(forms.extended)).go(),
        memory(&indexed(forms.extended)).go(),
        register(forms.extended).go(),
        memory(&[((forms.base + 2) << 8) | 0x40]).go(),
        memory(&[0x4207 | (forms.extension << 4)]).with(7, &[0x40]).go(),
    ]
}

/// Checks an operation in every form, where the third word of the extended result is 0.
#[track_caller]
fn check(forms: &Forms, left: [u16; 2], right: [u16; 2], result: [u16; 2], cs: u16, pi: u16) {
    for bench in all_forms(forms, left, right) {
        bench.has(0, &result).has(2, &[0]).fine(cs, pi);
    }
}

const ONE: [u16; 2] = [0x4000, 0x0001];
const TWO: [u16; 2] = [0x4000, 0x0002];
const THREE: [u16; 2] = [0x6000, 0x0002];
const ONE_AND_HALF: [u16; 2] = [0x6000, 0x0001];
const MINUS_ONE: [u16; 2] = [0x8000, 0x0000];
const MINUS_THREE: [u16; 2] = [0xA000, 0x0002];

#[test]
fn add() {
    check(&ADD, ONE, ONE, TWO, 0b0100, 0);
    check(&ADD, ONE, TWO, THREE, 0b0100, 0);
    check(&ADD, TWO, ONE, THREE, 0b0100, 0);
    check(&ADD, THREE, MINUS_THREE, [0, 0], 0b0010, 0);
    check(&ADD, MINUS_ONE, MINUS_ONE, [0x8000, 0x0001], 0b0001, 0);
    check(&ADD, TWO, MINUS_ONE, ONE, 0b0100, 0);
    check(&ADD, [0x8000, 0x007F], [0x8000, 0x007F], [0x8000, 0x007F], 0b0001, 0x1000);
    check(&ADD, [0x6000, 0x0080], [0xA800, 0x0080], [0, 0], 0b0010, 0x0200);
}

#[test]
fn subtract() {
    check(&SUBTRACT, THREE, TWO, ONE, 0b0100, 0);
    check(&SUBTRACT, ONE, TWO, MINUS_ONE, 0b0001, 0);
    check(&SUBTRACT, TWO, TWO, [0, 0], 0b0010, 0);
    check(&SUBTRACT, ONE, MINUS_ONE, TWO, 0b0100, 0);
    check(&SUBTRACT, [0, 0], MINUS_ONE, ONE, 0b0100, 0);
    check(&SUBTRACT, [0x8000, 0x007F], [0x4000, 0x007F], [0x8000, 0x007F], 0b0001, 0x1000);
}

#[test]
fn multiply() {
    check(&MULTIPLY, ONE_AND_HALF, TWO, THREE, 0b0100, 0);
    check(&MULTIPLY, MINUS_ONE, THREE, MINUS_THREE, 0b0001, 0);
    check(&MULTIPLY, MINUS_ONE, MINUS_ONE, ONE, 0b0100, 0);
    check(&MULTIPLY, [0, 0], THREE, [0, 0], 0b0010, 0);
    check(&MULTIPLY, [0x8000, 0x007F], [0x4000, 0x0001], [0x8000, 0x007F], 0b0001, 0x1000);
    check(&MULTIPLY, [0x4000, 0x0080], [0x4000, 0x0000], [0, 0], 0b0010, 0x0200);
    check(&MULTIPLY, [0x4000, 0x0080], [0x4000, 0x00FF], [0, 0], 0b0010, 0x0200);
    check(&MULTIPLY, [0x8000, 0x0040], [0x4000, 0x0040], [0x8000, 0x007F], 0b0001, 0x1000);
    check(&MULTIPLY, [0x8000, 0x0040], [0x4000, 0x003F], [0x8000, 0x007E], 0b0001, 0);
}

#[test]
fn divide() {
    check(&DIVIDE, THREE, TWO, ONE_AND_HALF, 0b0100, 0);
    check(&DIVIDE, THREE, ONE_AND_HALF, TWO, 0b0100, 0);
    check(&DIVIDE, MINUS_THREE, THREE, MINUS_ONE, 0b0001, 0);
    check(&DIVIDE, ONE, MINUS_ONE, MINUS_ONE, 0b0001, 0);
    check(&DIVIDE, MINUS_ONE, MINUS_ONE, ONE, 0b0100, 0);
    check(&DIVIDE, [0, 0], THREE, [0, 0], 0b0010, 0);
    check(&DIVIDE, MINUS_ONE, [0, 0], [0x8000, 0x007F], 0b0001, 0x1000);
    check(&DIVIDE, [0x4000, 0x0080], [0x4000, 0x0001], [0, 0], 0b0010, 0x0200);
    check(&DIVIDE, MINUS_ONE, [0x4000, 0x0080], [0x8000, 0x007F], 0b0001, 0x1000);
}

#[test]
fn positive_overflow_fills_the_mantissa() {
    let rows = [
        (&ADD, [0x4000, 0x007F], [0x4000, 0x007F]),
        (&SUBTRACT, [0x4000, 0x007F], [0x8000, 0x007F]),
        (&MULTIPLY, [0x4000, 0x007F], [0x4000, 0x0001]),
        (&MULTIPLY, [0x8000, 0x007F], [0x8000, 0x0000]),
        (&DIVIDE, [0x4000, 0x0000], [0x0000, 0x0000]),
        (&DIVIDE, [0x4000, 0x0000], [0x4000, 0x0080]),
        (&DIVIDE, [0x8000, 0x0000], [0x8000, 0x0081]),
    ];
    for (number, (forms, left, right)) in rows.into_iter().enumerate() {
        for (form, bench) in all_forms(forms, left, right).into_iter().enumerate() {
            let third = if (3..=5).contains(&form) { 0xFFFF } else { 0 };
            assert_eq!(bench.state.r[..3], [0x7FFF, 0xFF7F, third], "row {number}, form {form}");
            bench.fine(0b0100, 0x1000);
        }
    }
}

#[test]
fn compare() {
    let check = |left, right, cs| {
        for bench in all_forms(&COMPARE, left, right) {
            bench.has(0, &left).fine(cs, 0);
        }
    };
    check(ONE, ONE, 0b0010);
    check(ONE, TWO, 0b0001);
    check(TWO, ONE, 0b0100);
    check(MINUS_ONE, ONE, 0b0001);
    check(MINUS_THREE, MINUS_ONE, 0b0001);
    check([0, 0], MINUS_ONE, 0b0100);
    check([0x7FFF, 0xFF7F], [0x4000, 0x0080], 0b0100);
    check([0x8000, 0x007F], [0x8000, 0x0080], 0b0001);
    check([0x4000, 0x0080], [0, 0], 0b0100);
}

#[test]
fn compare_by_exact_value() {
    let order = |left: [u16; 2], right: [u16; 2], cs| {
        on(&[0xF902]).with(0, &left).with(2, &right).go().fine(cs, 0);
    };
    order([0x4000, 0x0001], [0x2000, 0x0002], 0b0010);
    order([0x8000, 0x0000], [0xC000, 0x0001], 0b0010);
    order([0x0000, 0x0005], [0x0000, 0x0080], 0b0010);
    order([0x0000, 0x017F], [0x7FFF, 0xFF68], 0b0100);
    order([0x0000, 0x017F], [0x7FFF, 0xFF69], 0b0001);
    order([0xFFFF, 0xFF7F], [0x0000, 0x0080], 0b0001);
    order([0x0000, 0x007F], [0xFFFF, 0xFF80], 0b0100);
    order([0x0000, 0x0080], [0x0000, 0x017F], 0b0001);
}

#[test]
fn low_bits_are_cut_off_below() {
    // 1.0 plus one unit, times itself: the square's low part is dropped.
    on(&[0xC902]).with(0, &[0x4000, 0x0101, 0x4000, 0x0101]).go().has(0, &[0x4000, 0x0201]);
    // The same with a minus: cut off toward negative infinity.
    on(&[0xC902]).with(0, &[0xBFFF, 0xFF01, 0x4000, 0x0101]).go().has(0, &[0xBFFF, 0xFD01]);
    // A third and its negative.
    on(&[0xD902]).with(0, &[0x4000, 0x0001, 0x6000, 0x0002]).go().has(0, &[0x5555, 0x55FF]);
    on(&[0xD902]).with(0, &[0x8000, 0x0000, 0x6000, 0x0002]).go().has(0, &[0xAAAA, 0xAAFF]);
    let wide = on(&[0xDB03]).with(0, &[0x4000, 0x0001, 0, 0x6000, 0x0002, 0]).go();
    wide.has(0, &[0x5555, 0x55FF, 0x5555]);
    let wide = on(&[0xDB03]).with(0, &[0x8000, 0x0000, 0, 0x6000, 0x0002, 0]).go();
    wide.has(0, &[0xAAAA, 0xAAFF, 0xAAAA]);
}

#[test]
fn third_word_is_the_low_part_of_the_mantissa() {
    let bench = on(&[0xAB03]).with(0, &[0x4000, 0x0000, 0xFFFF, 0x4000, 0x0000, 0x0003]).go();
    bench.has(0, &[0x4000, 0x0001, 0x8001]).fine(0b0100, 0);
    let bench = on(&[0xBB03]).with(0, &[0x4000, 0x0000, 0x0001, 0x4000, 0x0000, 0]).go();
    bench.has(0, &[0x4000, 0x00DA, 0]).fine(0b0100, 0);
}

#[test]
fn absolute_value() {
    let check = |from: [u16; 2], to: [u16; 2], cs, pi| {
        on(&[0xAC02]).with(2, &from).go().has(0, &to).has(2, &from).fine(cs, pi);
        on(&[0xAC22]).with(2, &from).go().has(2, &to).fine(cs, pi);
        on(&[0xAC12]).with(2, &from).go().has(1, &to).fine(cs, pi);
    };
    check(MINUS_THREE, THREE, 0b0100, 0);
    check(THREE, THREE, 0b0100, 0);
    check([0, 0], [0, 0], 0b0010, 0);
    check([0x8000, 0x0005], [0x4000, 0x0006], 0b0100, 0);
    check([0x8000, 0x007F], [0x7FFF, 0xFF7F], 0b0100, 0x1000);
    check([0xBFFF, 0xFF80], [0x4000, 0x0180], 0b0100, 0);
}

#[test]
fn negative() {
    let check = |from: [u16; 2], to: [u16; 2], cs, pi| {
        on(&[0xBC02]).with(2, &from).go().has(0, &to).has(2, &from).fine(cs, pi);
        on(&[0xBC22]).with(2, &from).go().has(2, &to).fine(cs, pi);
        on(&[0xBC12]).with(2, &from).go().has(1, &to).fine(cs, pi);
    };
    check(MINUS_THREE, THREE, 0b0100, 0);
    check(THREE, MINUS_THREE, 0b0001, 0);
    check([0, 0], [0, 0], 0b0010, 0);
    check([0x8000, 0x0005], [0x4000, 0x0006], 0b0100, 0);
    check([0x4000, 0x0005], [0x8000, 0x0004], 0b0001, 0);
    check([0x8000, 0x0080], [0x4000, 0x0081], 0b0100, 0);
}

#[test]
fn fix() {
    let check = |from: [u16; 2], to: u16, cs| {
        on(&[0xE812]).with(1, &[0x7777]).with(2, &from).go().has(1, &[to]).fine(cs, 0);
    };
    check(ONE_AND_HALF, 1, 0b0100);
    check([0xA000, 0x0001], 0xFFFF, 0b0001);
    check([0x7FFF, 0xFF00], 0, 0b0010);
    check([0x8000, 0x0100], 0, 0b0010);
    check(MINUS_ONE, 0xFFFF, 0b0001);
    check([0x7FFF, 0xFF0F], 0x7FFF, 0b0100);
    check([0x8000, 0x000F], 0x8000, 0b0001);
    check([0x8000, 0x010F], 0x8001, 0b0001);
    check([0x8000, 0x0080], 0, 0b0010);
    check([0x0001, 0x000F], 1, 0b0100);
}

#[test]
fn extended_fix() {
    let check = |from: [u16; 3], to: [u16; 2], cs| {
        on(&[0xEA03]).with(0, &[7, 7]).with(3, &from).go().has(0, &to).fine(cs, 0);
    };
    check([0x6000, 0x0001, 0], [0, 1], 0b0100);
    check([0x7FFF, 0xFF1F, 0xFFFF], [0x7FFF, 0xFFFF], 0b0100);
    check([0x8000, 0x001F, 0x0000], [0x8000, 0x0000], 0b0001);
    check([0x8000, 0x001F, 0x0001], [0x8000, 0x0001], 0b0001);
    check([0xFFFF, 0xFF80, 0xFFFF], [0, 0], 0b0010);
    check([0x4000, 0x0011, 0x0000], [1, 0], 0b0100);
    // The operand's registers may be the result's.
    on(&[0xEA00]).with(0, &[0x4000, 0x0011, 0]).go().has(0, &[1, 0, 0]);
}

#[test]
fn float_integers() {
    let check = |from: u16, to: [u16; 2], cs| {
        on(&[0xE912]).with(2, &[from]).go().has(1, &to).fine(cs, 0);
    };
    check(1, ONE, 0b0100);
    check(3, THREE, 0b0100);
    check(0xFFFF, MINUS_ONE, 0b0001);
    check(0x8000, [0x8000, 0x000F], 0b0001);
    check(0x7FFF, [0x7FFF, 0x000F], 0b0100);
    check(0xFFFE, [0x8000, 0x0001], 0b0001);
    on(&[0xE911]).with(1, &[0, 9]).go().has(1, &[0, 0]).fine(0b0010, 0);
    let wide = |from: [u16; 2], to: [u16; 3], cs| {
        on(&[0xEB03]).with(0, &[9, 9, 9]).with(3, &from).go().has(0, &to).fine(cs, 0);
    };
    wide([0, 0], [0, 0, 0], 0b0010);
    wide([0, 1], [0x4000, 0x0001, 0], 0b0100);
    wide([0xFFFF, 0xFFFF], [0x8000, 0x0000, 0], 0b0001);
    wide([0x8000, 0x0000], [0x8000, 0x001F, 0], 0b0001);
    wide([0x7FFF, 0xFFFF], [0x7FFF, 0xFF1F, 0xFF00], 0b0100);
    on(&[0xEB00]).with(0, &[0x7FFF, 0xFFFF]).go().has(0, &[0x7FFF, 0xFF1F, 0xFF00]);
}

/// Whether a mantissa's sign and next bit differ.
fn normal(mantissa: i128, bits: u32) -> bool {
    let half = 1i128 << (bits - 2);
    (-2 * half <= mantissa && mantissa < -half) || (half <= mantissa && mantissa < 2 * half)
}

/// Some float of a width, often not normalised, often at a border.
fn some_float(numbers: &mut Numbers, width: Width) -> Float {
    let words = [numbers.edge(), numbers.edge(), numbers.edge()];
    let mut float = Float::unpack(words, width);
    if numbers.next().is_multiple_of(2) {
        float.exponent /= 16;
    }
    match numbers.next() % 4 {
        0 => Float { mantissa: float.mantissa >> (numbers.next() % width.bits), ..float },
        1 => simulator::floats::normalised(Float { exponent: 0, ..float }, width),
        _ => float,
    }
}

/// The mantissa and exponent of `top / bottom` times two to the power `n`, rounded down.
fn rounded_down(top: i128, bottom: i128, n: i32, bits: u32) -> (i128, i32) {
    // Tries one exponent after the other; exactly one gives a normalised mantissa.
    let one = 1i128 << (bits - 1);
    let floor = |by: i32| {
        if by >= 0 {
            (top * one).div_euclid(bottom << by)
        } else {
            ((top * one) << -by).div_euclid(bottom)
        }
    };
    let found: Vec<i32> = (-41..42).filter(|by| normal(floor(*by), bits)).collect();
    assert_eq!(found.len(), 1);
    (floor(found[0]), n + found[0])
}

/// The outcome for a mantissa and an exponent of any size.
fn expected(mantissa: i128, exponent: i32, bits: u32) -> Outcome {
    let one = 1i128 << (bits - 1);
    let overflow = if mantissa < 0 { -one } else { one - 1 };
    let (mantissa, exponent, pending) = match exponent {
        128.. => (overflow, 127, 0x1000),
        -128..=127 => (mantissa, exponent, 0),
        _ => (0, 0, 0x0200),
    };
    Outcome { value: Float { mantissa, exponent }, pending }
}

#[test]
fn products_are_exact_and_rounded_down() {
    let mut numbers = Numbers::new(2);
    for round in 0..40_000 {
        let width = if round % 2 == 0 { SINGLE } else { EXTENDED };
        let (a, o) = (some_float(&mut numbers, width), some_float(&mut numbers, width));
        let (n, exact) = (a.exponent + o.exponent, a.mantissa * o.mantissa);
        if !(-128..=127).contains(&n) || exact == 0 {
            continue;
        }
        let (mantissa, exponent) = product_down(exact, n, width.bits);
        assert_eq!(product(a, o, width), expected(mantissa, exponent, width.bits), "{a:?} {o:?}");
    }
}

/// The exact product of two mantissas, rounded down: exponents tried from above.
fn product_down(exact: i128, n: i32, bits: u32) -> (i128, i32) {
    let one = 1i128 << (bits - 1);
    let mut exponent = n + 1;
    loop {
        let by = exponent - n;
        let mantissa =
            if by >= 0 { exact.div_euclid(one << by) } else { (exact << -by).div_euclid(one) };
        if normal(mantissa, bits) {
            return (mantissa, exponent);
        }
        exponent -= 1;
    }
}

#[test]
fn quotients_are_exact_and_rounded_down() {
    let mut numbers = Numbers::new(3);
    for round in 0..40_000 {
        let width = if round % 2 == 0 { SINGLE } else { EXTENDED };
        let (a, o) = (some_float(&mut numbers, width), some_float(&mut numbers, width));
        let n = a.exponent - o.exponent;
        if !(-128..=127).contains(&n) || a.mantissa * o.mantissa == 0 {
            continue;
        }
        let (top, bottom) = (a.mantissa * o.mantissa.signum(), o.mantissa.abs());
        let (mantissa, exponent) = rounded_down(top, bottom, n, width.bits);
        let mut outcome = expected(mantissa, exponent, width.bits);
        if n == 127 && top.abs() >= bottom {
            outcome = expected(mantissa, 128, width.bits);
        }
        assert_eq!(quotient(a, o, width), outcome, "{a:?} {o:?}");
    }
}

/// Add or subtract by the printed lines, one position at a time.
fn line_by_line(a: Float, o: Float, width: Width, minus: bool) -> Outcome {
    let (mut ma, mut ea, mut mo, mut eo) = (a.mantissa, a.exponent, o.mantissa, o.exponent);
    if ma == 0 && mo != 0 {
        ea = eo;
    }
    while ma != 0 && mo != 0 && ea > eo {
        (mo, eo) = (mo >> 1, eo + 1);
        if mo == 0 {
            break;
        }
    }
    while ma != 0 && o.mantissa != 0 && ea < eo {
        (ma, ea) = (ma >> 1, ea + 1);
    }
    if a.mantissa != 0 && o.mantissa != 0 {
        ea = a.exponent.max(o.exponent);
    }
    let mut total = if minus { ma - mo } else { ma + mo };
    let one = 1i128 << (width.bits - 1);
    if !(-one..one).contains(&total) {
        (total, ea) = (total >> 1, ea + 1);
    }
    if total == 0 {
        return expected(0, 0, width.bits);
    }
    while ea <= 127 && !normal(total, width.bits) {
        (total, ea) = (total << 1, ea - 1);
    }
    expected(total, ea, width.bits)
}

#[test]
fn sums_line_by_line() {
    let mut numbers = Numbers::new(4);
    for round in 0..40_000 {
        let width = if round % 2 == 0 { SINGLE } else { EXTENDED };
        let (a, o) = (some_float(&mut numbers, width), some_float(&mut numbers, width));
        assert_eq!(sum(a, o, width), line_by_line(a, o, width, false), "{a:?} {o:?}");
        assert_eq!(difference(a, o, width), line_by_line(a, o, width, true), "{a:?} {o:?}");
    }
}

#[test]
fn comparisons_agree_with_real_numbers() {
    let mut numbers = Numbers::new(5);
    let real = |float: Float| float.mantissa as f64 * f64::powi(2.0, float.exponent);
    for round in 0..40_000 {
        let width = if round % 2 == 0 { SINGLE } else { EXTENDED };
        let (a, o) = (some_float(&mut numbers, width), some_float(&mut numbers, width));
        assert_eq!(Some(compared(a, o)), real(a).partial_cmp(&real(o)), "{a:?} {o:?}");
    }
}
