//! The lines of the benchmark: those of all legal first words, printed and read by both.

use simulator::lines::{read, write, Words};
use twin1750::{print_into, read_into, LINE_BYTES};

/// The second word of every line that shows one.
const SECOND: u16 = 0x9ABC;

/// Every legal first word, and its line.
pub struct LegalLines(Vec<(u16, Vec<u8>)>);

impl Default for LegalLines {
    fn default() -> LegalLines {
        let mut lines = Vec::new();
        for first in 0..=0xFFFF {
            let mut line = Vec::new();
            if write(first, SECOND, &mut line) {
                lines.push((first, line));
            }
        }
        LegalLines(lines)
    }
}

/// Each function goes through the lines in turn, as many as `count`, and gives a sum, which is the same for both.
impl LegalLines {
    /// How many there are.
    pub fn number(&self) -> usize {
        self.0.len()
    }

    /// The lines in turn.
    fn turns(&self, count: usize) -> impl Iterator<Item = &(u16, Vec<u8>)> {
        self.0.iter().cycle().take(count)
    }

    /// Prints by the twin: the sum of lengths and last bytes.
    pub fn print_twin(&self, count: usize) -> u64 {
        let (mut line, mut length, mut sum) = ([0; LINE_BYTES], 0, 0);
        for (first, _) in self.turns(count) {
            if print_into(*first, SECOND, &mut line, &mut length).is_ok() {
                sum += length as u64 + u64::from(line[length - 1]);
            }
        }
        sum
    }

    /// Prints by the simulator: the same.
    pub fn print_simulator(&self, count: usize) -> u64 {
        let (mut line, mut sum) = (Vec::with_capacity(LINE_BYTES), 0);
        for (first, _) in self.turns(count) {
            line.clear();
            if write(*first, SECOND, &mut line) {
                sum += line.len() as u64 + u64::from(line[line.len() - 1]);
            }
        }
        sum
    }

    /// Reads by the twin: the sum of the words.
    pub fn read_twin(&self, count: usize) -> u64 {
        let (mut words, mut number, mut sum) = ([0; 2], 0, 0);
        for (_, line) in self.turns(count) {
            if read_into(line, &mut words, &mut number).is_ok() {
                sum += u64::from(words[0]) + u64::from(words[1]);
            }
        }
        sum
    }

    /// Reads by the simulator: the same.
    pub fn read_simulator(&self, count: usize) -> u64 {
        let mut sum = 0;
        for (_, line) in self.turns(count) {
            sum += match read(line) {
                Ok(Words::One(first)) => u64::from(first),
                Ok(Words::Two(first, second)) => u64::from(first) + u64::from(second),
                Err(_) => 0,
            };
        }
        sum
    }
}
