//! The program `lines`: each line of its input is a request, answered by one line.

use super::digits::{word, write_word};
use super::read::{read, Words};
use super::write::write;

/// The most bytes that a line of the input may have without its newline.
pub const LINE_BYTES: usize = 65_536;

/// A request: two words to print, or a line to read.
enum Request<'a> {
    Print(u16, u16),
    Read(&'a [u8]),
}

/// The request of a line of the input, nothing where it is malformed.
fn request(line: &[u8]) -> Option<Request<'_>> {
    match line {
        _ if line.len() > LINE_BYTES => None,
        [b'W', b' ', rest @ ..] if rest.len() == 9 && rest[4] == b' ' => {
            Some(Request::Print(word(&rest[..4])?, word(&rest[5..])?))
        }
        [b'L', b' ', rest @ ..] => Some(Request::Read(rest)),
        _ => None,
    }
}

/// Writes what was read.
fn write_words(words: Words, output: &mut Vec<u8>) {
    match words {
        Words::One(first) => write_word(first, output),
        Words::Two(first, second) => {
            write_word(first, output);
            output.push(b' ');
            write_word(second, output);
        }
    }
}

/// Writes the answer to the line of this number.
fn answer(number: usize, line: &[u8], output: &mut Vec<u8>) {
    let refused = match request(line) {
        None => {
            output.extend_from_slice(format!("malformed line {number}").as_bytes());
            None
        }
        Some(Request::Print(first, second)) => (!write(first, second, output)).then_some(14),
        Some(Request::Read(line)) => read(line).map(|words| write_words(words, output)).err(),
    };
    if let Some(refusal) = refused {
        output.extend_from_slice(format!("refused {refusal}").as_bytes());
    }
    output.push(b'\n');
}

/// What the program writes for an input.
pub fn answers(input: &[u8]) -> Vec<u8> {
    let mut output = Vec::with_capacity(input.len());
    for (number, line) in (1..).zip(input.split_inclusive(|byte| *byte == b'\n')) {
        answer(number, line.strip_suffix(b"\n").unwrap_or(line), &mut output);
    }
    output
}
