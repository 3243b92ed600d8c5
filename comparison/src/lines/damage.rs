//! Damage to the bytes of a line.

use super::random::ALPHABET;
use crate::numbers::Numbers;

/// Damages a line once, at times twice or three times.
pub fn damage(numbers: &mut Numbers, text: &mut Vec<u8>) {
    for _ in 0..numbers.pick(&[1, 1, 1, 1, 2, 3]) {
        if text.is_empty() {
            text.push(numbers.pick(ALPHABET));
        }
        once(numbers, text);
    }
}

/// Damages a line that is not empty once.
fn once(numbers: &mut Numbers, text: &mut Vec<u8>) {
    let place = numbers.below(text.len() as u32) as usize;
    let next = (place + 1) % text.len();
    let any = numbers.word() as u8;
    let byte = if numbers.once_in(8) { any } else { numbers.pick(ALPHABET) };
    match numbers.below(16) {
        0..=2 => text[place] = byte,
        3 | 4 => drop(text.remove(place)),
        5 => text.insert(place, text[place]),
        6 => text.insert(place, byte),
        7 => text.swap(place, next),
        8 => text[place] ^= 0x20,
        9 if numbers.once_in(2) => text.make_ascii_lowercase(),
        9 | 10 => text.truncate(place),
        11 | 12 => move_byte(numbers, text, place),
        13 => text.insert(0, byte),
        14 => text.push(byte),
        _ => digits(numbers, text),
    }
}

/// Moves a blank, a comma, or another byte where there is none, to another place.
fn move_byte(numbers: &mut Numbers, text: &mut Vec<u8>, place: usize) {
    let wanted = numbers.pick(b" ,,");
    let from = text.iter().position(|byte| *byte == wanted).unwrap_or(place);
    let byte = text.remove(from);
    text.insert(numbers.below(text.len() as u32 + 1) as usize, byte);
}

/// Appends digits.
fn digits(numbers: &mut Numbers, text: &mut Vec<u8>) {
    for _ in 0..=numbers.below(4) {
        text.push(numbers.pick(b"0123456789"));
    }
}
