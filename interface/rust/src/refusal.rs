//! Refusals, by the numbers of the questions.

use std::error::Error;
use std::fmt;

/// The first question to a call that was answered by "no".
#[derive(Clone, Copy, Debug, PartialEq, Eq, Hash)]
pub enum Refusal {
    /// Memory is not a multiple of 4,096 words, from 4,096 to 1,048,576.
    Memory = 1,
    /// There are not exactly 512 page registers.
    Pages = 2,
    /// There are not exactly 1,024 ports.
    Ports = 3,
    /// The budget is above 1,000,000.
    Budget = 4,
    /// The counter plus the budget is above 4,294,967,295.
    Counter = 5,
    /// The image has one byte alone: neither no bytes, nor at least two.
    NoCount = 6,
    /// The image has more than 64 entries.
    ManyEntries = 7,
    /// The table of the image is not whole.
    ShortTable = 8,
    /// An entry's kind is not 1 to 4.
    Kind = 9,
    /// An entry has no words, or some outside its target.
    Range = 10,
    /// An entry shares a word with an earlier one of its kind.
    SharedWord = 11,
    /// The bodies do not end the image.
    Bodies = 12,
    /// The mnemonic of a line is unknown, or a first word begins no legal instruction.
    Mnemonic = 14,
    /// The operands of a line do not have the form of the instruction's box.
    Operands = 15,
    /// An operand of a line is outside its field.
    Field = 16,
    /// There are not exactly 257 durations.
    Durations = 17,
    /// The packed state is not exactly 256 words.
    State = 100,
}

impl Refusal {
    /// All refusals.
    pub const ALL: [Refusal; 17] = [
        Refusal::Memory,
        Refusal::Pages,
        Refusal::Ports,
        Refusal::Budget,
        Refusal::Counter,
        Refusal::NoCount,
        Refusal::ManyEntries,
        Refusal::ShortTable,
        Refusal::Kind,
        Refusal::Range,
        Refusal::SharedWord,
        Refusal::Bodies,
        Refusal::Mnemonic,
        Refusal::Operands,
        Refusal::Field,
        Refusal::Durations,
        Refusal::State,
    ];

    /// The number of the refusal.
    pub fn number(self) -> u32 {
        self as u32
    }

    /// An answer of the library: 0, or the number of a refusal. It has no other, by its contract.
    pub(crate) fn check(answer: u32) -> Result<(), Refusal> {
        if answer == 0 {
            return Ok(());
        }
        match Refusal::ALL.into_iter().find(|refusal| refusal.number() == answer) {
            Some(refusal) => Err(refusal),
            None => unreachable!("the library answered {answer}"),
        }
    }
}

impl fmt::Display for Refusal {
    fn fmt(&self, out: &mut fmt::Formatter<'_>) -> fmt::Result {
        write!(out, "refused {}", self.number())
    }
}

impl Error for Refusal {}
