//! Counts what the random programs reach: forms, commands, interrupts, faults, moments of the timers and of the memory fault
//! status, answers.

use crate::commands::{command_of, COMMANDS};
use crate::fault_moments::FaultMoments;
use crate::moments::{Moment, MOMENTS};
use crate::shapes::{form, form_name, forms, shape_of_form, FORMS};
use crate::simulated::Watcher;
use crate::watch::{Next, Seen};
use simulator::State;
use std::collections::BTreeMap;

/// Answers that runs and loads can give, and loads of no bytes and of one byte.
const RUN_ANSWERS: [u32; 8] = [0, 1, 2, 3, 4, 5, 17, 100];
const LOAD_ANSWERS: [u32; 12] = [0, 1, 2, 3, 6, 7, 8, 9, 10, 11, 12, 100];
const NO_BYTES_ANSWERS: [u32; 5] = [0, 1, 2, 3, 100];
const ONE_BYTE_ANSWERS: [u32; 5] = [1, 2, 3, 6, 100];
/// The machine error interrupt in PI, set by every fault.
const MACHINE_ERROR: u16 = 0x4000;
/// The bits of FT that faults set.
const FAULTS: [u16; 5] = [0x8000, 0x0400, 0x0080, 0x0040, 0x0020];

/// What was reached and how often.
pub struct Coverage {
    done: Vec<u64>,
    faulted: Vec<u64>,
    commands: [u64; COMMANDS.len()],
    entries: [u64; 16],
    faults: [u64; FAULTS.len()],
    moments: [u64; MOMENTS.len()],
    fault_moments: FaultMoments,
    watched: u64,
    refused: u64,
    illegal: u64,
    runs: Answers,
    loads: Answers,
    no_bytes: Answers,
    one_byte: Answers,
}

/// How often each answer was given.
type Answers = BTreeMap<u32, u64>;

impl Default for Coverage {
    fn default() -> Coverage {
        Coverage {
            done: vec![0; FORMS],
            faulted: vec![0; FORMS],
            commands: [0; COMMANDS.len()],
            entries: [0; 16],
            faults: [0; FAULTS.len()],
            moments: [0; MOMENTS.len()],
            fault_moments: FaultMoments::default(),
            watched: 0,
            refused: 0,
            illegal: 0,
            runs: Answers::new(),
            loads: Answers::new(),
            no_bytes: Answers::new(),
            one_byte: Answers::new(),
        }
    }
}

impl Watcher for Coverage {
    fn stepped(&mut self, seen: &Seen, after: &mut State, _memory: &mut [u16]) {
        self.watched += 1;
        let new = after.ft & !seen.before.ft;
        for (count, bit) in self.faults.iter_mut().zip(FAULTS) {
            *count += u64::from(new & bit != 0);
        }
        let moment = Moment::new(seen, after);
        for (count, (_, is)) in self.moments.iter_mut().zip(&MOMENTS) {
            *count += u64::from(is(&moment));
        }
        self.fault_moments.count(seen, after);
        match seen.next {
            Next::Entry(number) => self.entries[number] += 1,
            Next::Instruction { first, command } => {
                self.instruction(seen.before, first, command, after);
            }
            Next::Refused => self.refused += 1,
        }
    }

    fn ran(&mut self, answer: u32) {
        *self.runs.entry(answer).or_default() += 1;
    }

    fn loaded(&mut self, bytes: usize, answer: u32) {
        *self.loads.entry(answer).or_default() += 1;
        match bytes {
            0 => *self.no_bytes.entry(answer).or_default() += 1,
            1 => *self.one_byte.entry(answer).or_default() += 1,
            _ => {}
        }
    }
}

impl Coverage {
    /// Counts an instruction as done or faulted where FT and PI tell which it was.
    fn instruction(&mut self, before: &State, first: u16, command: Option<u16>, after: &State) {
        let Some(form) = form(first) else {
            self.illegal += 1;
            return;
        };
        let error = after.pi & MACHINE_ERROR;
        if after.ft & !before.ft != 0 || error & !before.pi != 0 {
            self.faulted[form] += 1;
        } else if error == 0 || after.r != before.r || after.sw != before.sw {
            self.done[form] += 1;
            if let Some(command) = command.and_then(command_of) {
                self.commands[command] += 1;
            }
        }
    }

    /// What was never reached, by name.
    pub fn missing(&self) -> Vec<String> {
        let mut missing = Vec::new();
        let mut ask = |reached: bool, name: String| {
            if !reached {
                missing.push(name);
            }
        };
        for form in forms() {
            ask(self.done[form] > 0, format!("{} done", form_name(form)));
            let can = shape_of_form(form).can_fault();
            ask(!can || self.faulted[form] > 0, format!("{} faulted", form_name(form)));
        }
        for ((name, _, _), count) in COMMANDS.iter().zip(self.commands) {
            ask(count > 0, format!("command {name}"));
        }
        for (number, count) in self.entries.iter().enumerate() {
            ask(*count > 0, format!("interrupt {number}"));
        }
        for (bit, count) in FAULTS.iter().zip(self.faults) {
            ask(count > 0, format!("fault {bit:04X}"));
        }
        for ((name, _), count) in MOMENTS.iter().zip(self.moments) {
            ask(count > 0, name.to_string());
        }
        for (name, count) in self.fault_moments.counts() {
            ask(count > 0, name);
        }
        for (what, given, answers) in self.answers() {
            for answer in answers {
                ask(given.contains_key(answer), format!("answer {answer} of {what}"));
            }
        }
        missing
    }

    /// The answers given, by the kind of call, and those that it can give.
    fn answers(&self) -> [(&'static str, &Answers, &'static [u32]); 4] {
        [
            ("runs", &self.runs, &RUN_ANSWERS),
            ("loads", &self.loads, &LOAD_ANSWERS),
            ("loads of no bytes", &self.no_bytes, &NO_BYTES_ANSWERS),
            ("loads of one byte", &self.one_byte, &ONE_BYTE_ANSWERS),
        ]
    }

    /// The counts in print.
    pub fn print(&self) -> String {
        let forms = forms();
        let can_fault: Vec<usize> =
            forms.iter().copied().filter(|form| shape_of_form(*form).can_fault()).collect();
        let commands: Vec<(String, u64)> =
            COMMANDS.iter().map(|(name, _, _)| name.to_string()).zip(self.commands).collect();
        let moments: Vec<(String, u64)> =
            MOMENTS.iter().map(|(name, _)| name.to_string()).zip(self.moments).collect();
        let numbered = |counts: &[u64]| {
            counts.iter().enumerate().map(|(n, count)| (n.to_string(), *count)).collect::<Vec<_>>()
        };
        let of = |forms: &[usize], counts: &[u64]| {
            forms.iter().map(|form| (form_name(*form), counts[*form])).collect::<Vec<_>>()
        };
        let rows = [
            ("forms done", of(&forms, &self.done)),
            ("forms faulted", of(&can_fault, &self.faulted)),
            ("XIO commands done", commands),
            ("interrupts entered", numbered(&self.entries)),
            ("moments of the timers", moments),
            ("moments of the memory fault status", self.fault_moments.counts()),
        ];
        let mut text = self.shares();
        for (what, counts) in rows {
            text += &reached(what, &counts);
        }
        for (what, given, _) in self.answers() {
            let counts: Vec<String> =
                given.iter().map(|(answer, count)| format!("{answer}: {count}")).collect();
            text += &format!("answers of {what}: {}\n", counts.join(", "));
        }
        text
    }

    /// How the watched steps are shared out, and the new bits of FT.
    fn shares(&self) -> String {
        let shares = [
            ("instructions done", self.done.iter().sum()),
            ("faulted", self.faulted.iter().sum()),
            ("interrupts entered", self.entries.iter().sum()),
            ("first fetches refused", self.refused),
            ("illegal", self.illegal),
        ];
        let shares = shares.map(|(what, count): (&str, u64)| {
            format!("{:.0} % {what}", 100.0 * count as f64 / self.watched.max(1) as f64)
        });
        let faults: Vec<String> = (FAULTS.iter().zip(self.faults))
            .map(|(bit, count)| format!("{bit:04X}: {count}"))
            .collect();
        format!(
            "steps watched {}: {}\nnew bits of FT: {}\n",
            self.watched,
            shares.join(", "),
            faults.join(", ")
        )
    }
}

/// How many of some things were reached, and which of them least often.
fn reached(what: &str, counts: &[(String, u64)]) -> String {
    let found = counts.iter().filter(|(_, count)| *count > 0).count();
    let (name, least) = counts.iter().min_by_key(|(_, count)| *count).expect("there are some");
    format!("{what}: {found} of {}, least often {name}, {least} times\n", counts.len())
}
