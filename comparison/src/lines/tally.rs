//! Counts the answers to requests: of words printed, and of lines read by their kind.

use super::random::Kind;
use std::collections::BTreeMap;

/// The answers of printing and of reading.
const PRINT_ANSWERS: [u32; 2] = [0, 14];
const READ_ANSWERS: [u32; 4] = [0, 14, 15, 16];
/// Each answer has to be given once in so many requests.
const OFTEN: u64 = 20;

/// How often each answer was given.
type Answers = BTreeMap<u32, u64>;

/// The answers so far.
#[derive(Default)]
pub struct Tally {
    prints: Answers,
    more: Answers,
    reads: BTreeMap<Kind, Answers>,
}

impl Tally {
    /// Counts the answer to a print.
    pub fn printed(&mut self, answer: u32) {
        *self.prints.entry(answer).or_default() += 1;
    }

    /// Counts the answer to a printed line with more behind it.
    pub fn with_more(&mut self, answer: u32) {
        *self.more.entry(answer).or_default() += 1;
    }

    /// Counts the answer to a random line.
    pub fn read(&mut self, kind: Kind, answer: u32) {
        *self.reads.entry(kind).or_default().entry(answer).or_default() += 1;
    }

    /// The answers of all random lines.
    fn reads(&self) -> Answers {
        let mut all = Answers::new();
        for (answer, count) in self.reads.values().flatten() {
            *all.entry(*answer).or_default() += count;
        }
        all
    }

    /// The counts in print.
    pub fn print(&self) -> String {
        let mut text = String::new();
        if !self.prints.is_empty() {
            text += &row("words printed", &self.prints);
            text += &row("their lines with more behind them", &self.more);
        }
        text += &row("random lines read", &self.reads());
        for (kind, answers) in &self.reads {
            text += &row(&format!("of these, {}", kind.name()), answers);
        }
        text
    }

    /// The answers that were not given often, by name.
    pub fn missing(&self) -> Vec<String> {
        let mut missing = Vec::new();
        let asked = [
            ("words printed", &self.prints, &PRINT_ANSWERS[..]),
            ("random lines read", &self.reads(), &READ_ANSWERS[..]),
        ];
        for (what, given, answers) in asked {
            let all: u64 = given.values().sum();
            for answer in answers {
                if given.get(answer).is_none_or(|count| count * OFTEN < all) {
                    missing.push(format!("answer {answer} of {what}, one in {OFTEN}"));
                }
            }
        }
        missing
    }
}

/// One kind of request: how many there were, and how many gave which answer.
fn row(what: &str, given: &Answers) -> String {
    let counts: Vec<String> =
        given.iter().map(|(answer, count)| format!("{answer}: {count}")).collect();
    format!("{what} {}; answers: {}\n", given.values().sum::<u64>(), counts.join(", "))
}
