//! Mnemonic lines: the line of an instruction's words, and the words of a line.

use crate::layout::LINE_BYTES;
use crate::library::{print_into, read_into};
use crate::Refusal;
use std::fmt;

/// The bytes of the longest line.
const LONGEST: usize = 17;

/// The line of an instruction, such as `LISP R3,16`.
#[derive(Clone, Copy, PartialEq, Eq, Hash)]
pub struct Line {
    /// The line, then zeros.
    bytes: [u8; LONGEST],
    length: usize,
}

impl Line {
    /// The bytes of the line, without a newline.
    pub fn as_bytes(&self) -> &[u8] {
        &self.bytes[..self.length]
    }

    /// The line as text: capital letters, digits, a blank, commas, a minus sign.
    pub fn as_str(&self) -> &str {
        std::str::from_utf8(self.as_bytes()).expect("a line is ASCII, by its contract")
    }
}

impl fmt::Display for Line {
    fn fmt(&self, out: &mut fmt::Formatter<'_>) -> fmt::Result {
        out.pad(self.as_str())
    }
}

impl fmt::Debug for Line {
    fn fmt(&self, out: &mut fmt::Formatter<'_>) -> fmt::Result {
        write!(out, "Line({:?})", self.as_str())
    }
}

/// The words of an instruction.
#[derive(Clone, Copy, Debug, PartialEq, Eq, Hash)]
pub enum Words {
    /// An instruction of one word.
    One(u16),
    /// An instruction of two words.
    Two(u16, u16),
}

impl Words {
    /// The first word.
    pub fn first(self) -> u16 {
        match self {
            Words::One(first) | Words::Two(first, _) => first,
        }
    }

    /// The second word, where there is one.
    pub fn second(self) -> Option<u16> {
        match self {
            Words::One(_) => None,
            Words::Two(_, second) => Some(second),
        }
    }
}

/// The line of the instruction that the first word begins. The second word is looked at only where the instruction has one.
///
/// [`Refusal::Mnemonic`]: the first word begins no legal instruction.
///
/// ```
/// assert_eq!(twin1750::print(0x823F, 0)?.as_str(), "LISP R3,16");
/// assert_eq!(twin1750::print(0x8012, 0x0100)?.to_string(), "L R1,0100,R2");
/// assert_eq!(twin1750::print(0x4900, 0), Err(twin1750::Refusal::Mnemonic));
/// # Ok::<(), twin1750::Refusal>(())
/// ```
pub fn print(first: u16, second: u16) -> Result<Line, Refusal> {
    let (mut buffer, mut length) = ([0; LINE_BYTES], 0);
    print_into(first, second, &mut buffer, &mut length)?;
    let mut bytes = [0; LONGEST];
    bytes.copy_from_slice(&buffer[..LONGEST]);
    Ok(Line { bytes, length })
}

/// The words of a line, which may have any length and any bytes. Fields of the first word that no line shows are 0.
///
/// [`Refusal::Mnemonic`], [`Refusal::Operands`] or [`Refusal::Field`], asked in this order: the line is refused.
///
/// ```
/// use twin1750::{read, Refusal, Words};
/// assert_eq!(read(b"LISP R3,16"), Ok(Words::One(0x823F)));
/// assert_eq!(read(b"L R1,0100,R2"), Ok(Words::Two(0x8012, 0x0100)));
/// assert_eq!(read(b"LISP R3,17"), Err(Refusal::Field));
/// ```
pub fn read(line: &[u8]) -> Result<Words, Refusal> {
    let (mut words, mut count) = ([0; 2], 0);
    read_into(line, &mut words, &mut count)?;
    let [first, second] = words;
    Ok(if count == 2 { Words::Two(first, second) } else { Words::One(first) })
}
