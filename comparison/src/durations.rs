//! Random durations of steps, and random timers with their remainders.

use crate::numbers::Numbers;
use crate::packed::DURATIONS;

/// Durations at borders: of the timers' units, of a rise that one byte holds, and of a word.
const BORDERS: [u16; 20] = [
    0, 1, 2, 37, 50, 90, 99, 100, 101, 199, 200, 250, 900, 999, 1000, 1001, 25_599, 25_600, 65_534,
    65_535,
];
/// The most that a timer rises in one step, from a remainder and by a duration of 65,535 tenths.
const MOST_RISES: u16 = 1_310;

/// A list of durations: as the program `twin` has them, all alike, all at an end, one long among
/// short ones, or each of them at random.
pub fn durations(numbers: &mut Numbers) -> Vec<u16> {
    match numbers.below(16) {
        0 | 1 => vec![100; DURATIONS],
        2 => vec![duration(numbers); DURATIONS],
        3 => vec![0; DURATIONS],
        4 => vec![u16::MAX; DURATIONS],
        5 => one_long(numbers),
        6..=8 => each(|| numbers.pick(&BORDERS)),
        9..=11 => each(|| numbers.small(300)),
        12..=13 => each(|| numbers.word()),
        _ => each(|| duration(numbers)),
    }
}

/// A list with each duration on its own.
fn each(next: impl FnMut() -> u16) -> Vec<u16> {
    std::iter::repeat_with(next).take(DURATIONS).collect()
}

/// A duration: at a border, short, or any.
fn duration(numbers: &mut Numbers) -> u16 {
    match numbers.below(4) {
        0 => numbers.pick(&BORDERS),
        1 | 2 => numbers.small(300),
        _ => numbers.word(),
    }
}

/// Short durations and a long one, at times that of a step that fetches no first word.
fn one_long(numbers: &mut Numbers) -> Vec<u16> {
    let mut list = each(|| numbers.small(10));
    let any = numbers.below(DURATIONS as u32) as usize;
    list[numbers.pick(&[any, any, any, DURATIONS - 1])] = 50_000 + numbers.small(15_536);
    list
}

/// A timer: near its end, so far from it as one step can rise, or any.
pub fn timer(numbers: &mut Numbers) -> u16 {
    match numbers.below(8) {
        0..=2 => 0_u16.wrapping_sub(numbers.small(6)),
        3 | 4 => 0_u16.wrapping_sub(numbers.small(MOST_RISES + 2)),
        _ => numbers.word(),
    }
}

/// The remainder of a timer with this unit: mostly below it, often just below; else one that no
/// step of a running timer leaves.
pub fn remainder(numbers: &mut Numbers, unit: u16) -> u16 {
    let any = numbers.word();
    match numbers.below(16) {
        0..=8 => numbers.small(unit),
        9..=11 => unit - 1,
        12 => 0,
        _ => numbers.pick(&[unit, unit + 1, 100, 1000, 65_535, any, any]),
    }
}
