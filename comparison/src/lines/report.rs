//! A difference of lines: where it was found, the request, and what both answered and left.

use super::subject::{Buffers, Request};
use std::fmt;

/// How many bytes of a line are printed.
const PRINTED: usize = 72;

/// Where a request comes from.
#[derive(Clone, Copy)]
pub enum Place {
    /// The print of two words, or its line read back.
    Words(u16, u16),
    /// The random line of a number, or its words printed.
    Line(u64),
}

/// Where two that print and read differ.
pub struct LineDifference {
    seed: u64,
    place: Place,
    request: String,
    answers: [u32; 2],
    left: Buffers,
    right: Buffers,
}

impl LineDifference {
    /// Of a request, its answers and what it left.
    pub fn new(
        seed: u64,
        place: Place,
        request: Request,
        answers: [u32; 2],
        left: Buffers,
        right: Buffers,
    ) -> Self {
        LineDifference { seed, place, request: spelt(request), answers, left, right }
    }
}

/// Bytes in print, the first of many.
fn shown(bytes: &[u8]) -> String {
    bytes[..bytes.len().min(PRINTED)].escape_ascii().to_string()
}

/// A request in print.
fn spelt(request: Request) -> String {
    match request {
        Request::Print(first, second) => format!("print of {first:04X} {second:04X}"),
        Request::Read(text) => format!("read of {} bytes: \"{}\"", text.len(), shown(text)),
    }
}

/// What a request left, in print.
fn left_by(answer: u32, buffers: &Buffers) -> String {
    let Buffers { line, length, words, count } = buffers;
    let words = format!("{words:04X?}, count {count}, length {length}");
    format!("answer {answer}, words {words}, line \"{}\"", shown(&line[..32]))
}

impl fmt::Display for LineDifference {
    fn fmt(&self, f: &mut fmt::Formatter) -> fmt::Result {
        match self.place {
            Place::Words(first, second) => {
                writeln!(f, "difference: seed {} words {first:04X} {second:04X}", self.seed)?;
            }
            Place::Line(number) => writeln!(f, "difference: seed {} line {number}", self.seed)?,
        }
        writeln!(f, "{}", self.request)?;
        writeln!(f, "simulator  {}", left_by(self.answers[0], &self.left))?;
        writeln!(f, "twin       {}", left_by(self.answers[1], &self.right))
    }
}
