//! The comparison: the same case on two machines, everything compared after every call.

use crate::case::Case;
use crate::report::Difference;
use crate::subject::{Call, Lent, Subject};

/// Cases of one series, one after another.
pub struct Batch<'a> {
    pub seed: u64,
    pub reference: &'a mut dyn Subject,
    pub subject: &'a mut dyn Subject,
    /// Calls and accepted steps so far.
    pub calls: u64,
    pub steps: u64,
}

/// Two machines in the same case.
pub struct Pair {
    case: Case,
    pub left: Lent,
    pub right: Lent,
}

impl Pair {
    /// Both machines at the start of a case.
    pub fn new(seed: u64, number: u64) -> Pair {
        let (case, left) = Case::new(seed, number);
        Pair { case, right: left.clone(), left }
    }

    /// Prepares both for the next call; they are alike, so that the choices are.
    pub fn next(&mut self) -> Call {
        let mut same = self.case.clone();
        let call = self.case.next(&mut self.left);
        same.next(&mut self.right);
        call
    }

    /// Whether both are alike, the answers included.
    pub fn alike(&self, answers: [u32; 2]) -> bool {
        answers[0] == answers[1] && self.left == self.right
    }
}

impl<'a> Batch<'a> {
    /// No case of a series made yet.
    pub fn new(seed: u64, reference: &'a mut dyn Subject, subject: &'a mut dyn Subject) -> Self {
        Batch { seed, reference, subject, calls: 0, steps: 0 }
    }

    /// Makes one call on both machines and gives both answers.
    pub fn call(&mut self, call: &Call, pair: &mut Pair) -> [u32; 2] {
        let answers =
            [self.reference.call(call, &mut pair.left), self.subject.call(call, &mut pair.right)];
        self.calls += 1;
        if let (Call::Run { budget, .. }, 0) = (call, answers[0]) {
            self.steps += u64::from(*budget);
        }
        answers
    }

    /// Compares one case; a difference is looked at again, step by step.
    fn case(&mut self, number: u64) -> Result<(), Box<Difference>> {
        let mut pair = Pair::new(self.seed, number);
        for round in 0..pair.case.calls {
            let call = pair.next();
            let answers = self.call(&call, &mut pair);
            if !pair.alike(answers) {
                return Err(Box::new(Difference::found(self, number, round, answers)));
            }
        }
        Ok(())
    }
}

/// Compares cases from a number on, for as long as `more` says so, and counts them.
pub fn compare(
    batch: &mut Batch,
    first: u64,
    more: impl Fn(u64) -> bool,
) -> Result<u64, Box<Difference>> {
    let mut number = first;
    while more(number) {
        batch.case(number)?;
        number += 1;
    }
    Ok(number - first)
}
