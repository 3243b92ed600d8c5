//! Printing: the line of one or two words.

use super::find::of_word;
use super::operand::Operand::Rx;

/// Writes the line of an instruction at the end of a text and answers true; false, with nothing
/// written, is the refusal 14. The second word is looked at only where the instruction has one.
pub fn write(first: u16, second: u16, text: &mut Vec<u8>) -> bool {
    let Some(instruction) = of_word(first) else {
        return false;
    };
    text.extend_from_slice(instruction.name.as_bytes());
    let mut before = b' ';
    for operand in instruction.operands {
        if *operand == Rx && first & 0xF == 0 {
            continue;
        }
        text.push(before);
        before = b',';
        operand.write(first, second, text);
    }
    true
}

/// The line of an instruction; nothing is the refusal 14.
pub fn print(first: u16, second: u16) -> Option<String> {
    let mut text = Vec::with_capacity(20);
    let written = write(first, second, &mut text);
    written.then(|| String::from_utf8(text).expect("letters and digits"))
}
