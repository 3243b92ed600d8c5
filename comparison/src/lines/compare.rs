//! The comparison of lines: the same request to both, answers and everything lent compared.

use super::random::{line, Kind};
use super::report::{LineDifference, Place};
use super::subject::{Buffers, LineSubject, Request};
use super::tally::Tally;
use crate::numbers::Numbers;
use std::ops::Range;

/// The second words that every first word is printed with, beside a random one.
const SECONDS: [u16; 3] = [0x0000, 0x9ABC, 0xFFFF];
/// What is put behind a line, so that it has a byte or an operand more.
const BEHIND: [&[u8]; 6] = [b" ", b",", b",R0", b",R1", b"0", b"\n"];

/// Requests of one series.
pub struct LineBatch<'a> {
    seed: u64,
    reference: &'a mut dyn LineSubject,
    subject: &'a mut dyn LineSubject,
    /// Gives the patterns of what is lent.
    patterns: Numbers,
    tally: Tally,
}

type Compared<T> = Result<T, Box<LineDifference>>;

impl<'a> LineBatch<'a> {
    /// No request of a series made yet.
    pub fn new(
        seed: u64,
        reference: &'a mut dyn LineSubject,
        subject: &'a mut dyn LineSubject,
    ) -> Self {
        let patterns = Numbers::new(seed);
        LineBatch { seed, reference, subject, patterns, tally: Tally::default() }
    }

    /// Makes one request to both and gives the answer and what it left, where these are alike.
    fn ask(&mut self, place: Place, request: Request) -> Compared<(u32, Buffers)> {
        let mut left = Buffers::filled(self.patterns.next());
        let mut right = left.clone();
        let answers =
            [self.reference.ask(request, &mut left), self.subject.ask(request, &mut right)];
        if answers[0] != answers[1] || left != right {
            let seed = self.seed;
            return Err(Box::new(LineDifference::new(seed, place, request, answers, left, right)));
        }
        Ok((answers[0], left))
    }

    /// Prints every first word with several second words, and reads back what was printed, of one second word also with more
    /// behind it.
    pub fn first_words(&mut self) -> Compared<()> {
        for first in 0..=0xFFFF {
            let any = self.patterns.word();
            for (index, second) in SECONDS.into_iter().chain([any]).enumerate() {
                let place = Place::Words(first, second);
                let (answer, left) = self.ask(place, Request::Print(first, second))?;
                self.tally.printed(answer);
                if answer == 0 {
                    self.ask(place, Request::Read(&left.line[..left.length]))?;
                }
                if answer == 0 && index == 0 {
                    self.with_more(place, &left.line[..left.length])?;
                }
            }
        }
        Ok(())
    }

    /// Reads a printed line with more behind it.
    fn with_more(&mut self, place: Place, printed: &[u8]) -> Compared<()> {
        for behind in BEHIND {
            let (answer, _) = self.ask(place, Request::Read(&[printed, behind].concat()))?;
            self.tally.with_more(answer);
        }
        Ok(())
    }

    /// Reads the random lines of these numbers, and prints the words of each that has some.
    pub fn lines(&mut self, numbers: Range<u64>) -> Compared<()> {
        for number in numbers {
            let (kind, text) = line(self.seed, number);
            self.line(number, kind, &text)?;
        }
        Ok(())
    }

    /// Reads one line, and prints its words if it has some.
    fn line(&mut self, number: u64, kind: Kind, text: &[u8]) -> Compared<()> {
        let place = Place::Line(number);
        let (answer, left) = self.ask(place, Request::Read(text))?;
        self.tally.read(kind, answer);
        if answer == 0 {
            let any = self.patterns.word();
            let second = if left.count == 2 { left.words[1] } else { any };
            self.ask(place, Request::Print(left.words[0], second))?;
        }
        Ok(())
    }

    /// The answers given, in print.
    pub fn print(&self) -> String {
        self.tally.print()
    }

    /// The answers that were not given often, by name.
    pub fn missing(&self) -> Vec<String> {
        self.tally.missing()
    }
}
