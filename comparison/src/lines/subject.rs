//! What is compared of lines: printing and reading, with everything lent to a call.

use crate::simulated::Simulated;
use crate::twin::Twin;
use simulator::lines::{read, write, Words};
use twin1750::{print_into, read_into, Refusal, LINE_BYTES};

/// Everything that a call may write to: a line and its length, two words and their count.
#[derive(Clone, Debug, PartialEq, Eq)]
pub struct Buffers {
    pub line: [u8; LINE_BYTES],
    pub length: usize,
    pub words: [u16; 2],
    pub count: usize,
}

impl Buffers {
    /// Filled with a pattern, so that a change is seen.
    pub fn filled(number: u64) -> Buffers {
        let start = number as u8;
        Buffers {
            line: std::array::from_fn(|place| start.wrapping_add(place as u8)),
            length: (number >> 32) as usize,
            words: [(number >> 8) as u16, (number >> 24) as u16],
            count: (number >> 40) as usize,
        }
    }
}

/// One call: two words to print, or a line to read.
#[derive(Clone, Copy, Debug)]
pub enum Request<'a> {
    Print(u16, u16),
    Read(&'a [u8]),
}

/// One that prints and reads lines; it answers 0 or a refusal's number.
pub trait LineSubject {
    /// Answers a request and writes what it has to.
    fn ask(&mut self, request: Request, buffers: &mut Buffers) -> u32;
}

impl LineSubject for Twin {
    fn ask(&mut self, request: Request, buffers: &mut Buffers) -> u32 {
        let Buffers { line, length, words, count } = buffers;
        let result = match request {
            Request::Print(first, second) => print_into(first, second, line, length),
            Request::Read(text) => read_into(text, words, count),
        };
        result.map_or_else(Refusal::number, |()| 0)
    }
}

impl LineSubject for Simulated {
    fn ask(&mut self, request: Request, buffers: &mut Buffers) -> u32 {
        match request {
            Request::Print(first, second) => {
                let mut text = Vec::new();
                if !write(first, second, &mut text) {
                    return 14;
                }
                buffers.line[..text.len()].copy_from_slice(&text);
                buffers.length = text.len();
            }
            Request::Read(text) => match read(text) {
                Ok(Words::One(first)) => (buffers.words, buffers.count) = ([first, 0], 1),
                Ok(Words::Two(first, second)) => {
                    (buffers.words, buffers.count) = ([first, second], 2);
                }
                Err(refusal) => return u32::from(refusal),
            },
        }
        0
    }
}
