//! Words as they come, and their lines with one byte changed.

use super::Requests;
use crate::generator::Numbers;
use crate::lines::write::print;

/// Bytes that a changed line gets.
const BYTES: &[u8] = b"0123456789ABCDEFGLMNRSX ,,--Rar+\t";
/// How many words there are.
const COUNT: usize = 600;

/// A line with one byte dropped, doubled, put in or changed.
fn changed(line: &str, numbers: &mut Numbers) -> Vec<u8> {
    let mut bytes = line.as_bytes().to_vec();
    let place = numbers.below(bytes.len());
    let byte = BYTES[numbers.below(BYTES.len())];
    match numbers.below(4) {
        0 => drop(bytes.remove(place)),
        1 => bytes.insert(place, bytes[place]),
        2 => bytes.insert(place, byte),
        _ => bytes[place] = byte,
    }
    bytes
}

/// All of them.
pub(super) fn requests(requests: &mut Requests) {
    let mut numbers = Numbers(1_750);
    for _ in 0..COUNT {
        let (first, second) = (numbers.word(), numbers.word());
        requests.words(first, second);
        if let Some(line) = print(first, second) {
            requests.read(&line);
            requests.read(changed(&line, &mut numbers));
        }
    }
}
