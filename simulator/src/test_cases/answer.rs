//! What is written for the cases of an input: the format of docs/TEST-CASES.md, on this simulator.

use crate::{print, reset, run, State};
use crate::{DURATIONS, PAGE_REGISTERS, PORTS, PROGRAM_DURATION, PROGRAM_WORDS};

/// The number of an entry D that sets all durations.
const ALL: usize = DURATIONS;

/// A line of the input.
enum Line {
    Remark,
    Entry(u8, u16, u16),
    Malformed,
}

/// Four hexadecimal digits, letters capital.
fn word(digits: &[u8]) -> Option<u16> {
    let capital = |digit: &u8| digit.is_ascii_digit() || (b'A'..=b'F').contains(digit);
    if digits.len() != 4 || !digits.iter().all(capital) {
        return None;
    }
    u16::from_str_radix(std::str::from_utf8(digits).ok()?, 16).ok()
}

/// How many words there are of what an entry L numbers.
fn lent(number: u16) -> usize {
    [PROGRAM_WORDS, PAGE_REGISTERS, PORTS, DURATIONS][usize::from(number)]
}

/// Whether a kind has the number, and the number may have the word.
fn allowed(kind: u8, number: u16, word: u16) -> bool {
    let index = usize::from(number);
    match kind {
        b'S' => index < 29,
        b'M' => index < PROGRAM_WORDS,
        b'P' => index < PAGE_REGISTERS,
        b'O' => index < PORTS,
        b'D' => index <= ALL,
        b'L' => index < 4 && usize::from(word) <= lent(number),
        b'G' => true,
        _ => false,
    }
}

/// Reads one line.
fn read(line: &[u8]) -> Line {
    if line.first() == Some(&b'#') {
        return Line::Remark;
    }
    if line.len() != 11 || line[1] != b' ' || line[6] != b' ' {
        return Line::Malformed;
    }
    match (word(&line[2..6]), word(&line[7..])) {
        (Some(number), Some(word)) if allowed(line[0], number, word) => {
            Line::Entry(line[0], number, word)
        }
        _ => Line::Malformed,
    }
}

/// Everything a case's run is lent, the lengths of the parts that it is lent, and whether an entry
/// names a duration.
#[derive(Clone)]
struct Setup {
    state: State,
    memory: Vec<u16>,
    pages: Vec<u16>,
    ports: Vec<u16>,
    durations: Vec<u16>,
    lent: [usize; 4],
    timed: bool,
}

impl Setup {
    fn new() -> Setup {
        let (mut memory, mut pages) = (vec![0; PROGRAM_WORDS], vec![0; PAGE_REGISTERS]);
        let (mut ports, durations) = (vec![0; PORTS], vec![PROGRAM_DURATION; DURATIONS]);
        let state = reset(&mut memory, &mut pages, &mut ports);
        Setup { state, memory, pages, ports, durations, lent: [0, 1, 2, 3].map(lent), timed: false }
    }

    /// Sets what an entry names.
    fn set(&mut self, kind: u8, number: u16, word: u16) {
        let index = usize::from(number);
        match kind {
            b'M' => self.memory[index] = word,
            b'P' => self.pages[index] = word,
            b'O' => self.ports[index] = word,
            b'L' => self.lent[index] = usize::from(word),
            b'D' => self.set_duration(index, word),
            _ => set_state(&mut self.state, index, word),
        }
    }

    /// Sets one duration, or all of them.
    fn set_duration(&mut self, number: usize, tenths: u16) {
        self.timed = true;
        match number {
            ALL => self.durations.fill(tenths),
            _ => self.durations[number] = tenths,
        }
    }

    /// Makes the run.
    fn run(&mut self, steps: u32) -> Result<(), u32> {
        let [memory, pages, ports, durations] = self.lent;
        let (memory, pages) = (&mut self.memory[..memory], &mut self.pages[..pages]);
        let (ports, durations) = (&mut self.ports[..ports], &self.durations[..durations]);
        run(&mut self.state, memory, pages, ports, durations, steps)
    }
}

/// Sets one of the 29 words of the state.
fn set_state(state: &mut State, number: usize, word: u16) {
    let wide = u32::from(word);
    match number {
        0..=15 => state.r[number] = word,
        16 => state.ic = word,
        17 => state.sw = word,
        18 => state.mk = word,
        19 => state.pi = word,
        20 => state.ft = word,
        21 => {
            (state.enabled, state.hold) = (word & 1 != 0, word & 2 != 0);
            (state.timer_a_running, state.timer_b_running) = (word & 4 != 0, word & 8 != 0);
        }
        22 => state.timer_a = word,
        23 => state.timer_b = word,
        24 => state.counter = (wide << 16) | (state.counter & 0xFFFF),
        25 => state.counter = (state.counter & 0xFFFF_0000) | wide,
        26 => state.remainder_a = word,
        27 => state.remainder_b = word,
        _ => state.mfs = word,
    }
}

/// The line of timers, marks and counter.
fn time_line(state: &State) -> String {
    let State { timer_a, timer_b, counter, .. } = state;
    let marks = [state.enabled, state.hold, state.timer_a_running, state.timer_b_running];
    let word: u16 = marks.iter().zip([1, 2, 4, 8]).map(|(mark, w)| u16::from(*mark) * w).sum();
    format!("ta {timer_a:04X} tb {timer_b:04X} marks {word:04X} count {counter}\n")
}

/// The line of the remainders.
fn remainder_line(state: &State) -> String {
    format!("remainders {} {}\n", state.remainder_a, state.remainder_b)
}

/// The line of the memory fault status, where it is not 0.
fn status_line(state: &State) -> String {
    match state.mfs {
        0 => String::new(),
        status => format!("mfs {status:04X}\n"),
    }
}

/// The entries of the words that have changed.
fn changes(kind: char, before: &[u16], after: &[u16]) -> String {
    let changed = before.iter().zip(after).enumerate().filter(|(_, (old, new))| old != new);
    changed.map(|(index, (_, new))| format!("{kind} {index:04X} {new:04X}\n")).collect()
}

/// What is written for one case.
fn case(number: u32, mut setup: Setup, steps: u32) -> String {
    let before = setup.clone();
    let answer = setup.run(steps);
    let made = if answer.is_ok() { steps } else { 0 };
    let mut text = format!("case {number} answer {}\n", answer.err().unwrap_or(0));
    text += &print(&setup.state, made);
    text += &time_line(&setup.state);
    if setup.timed {
        text += &remainder_line(&setup.state);
    }
    text += &status_line(&setup.state);
    text += &changes('M', &before.memory, &setup.memory);
    text += &changes('P', &before.pages, &setup.pages);
    text + &changes('O', &before.ports, &setup.ports)
}

/// What is written for an input.
pub fn answers(input: &[u8]) -> String {
    let mut lines: Vec<&[u8]> = input.split(|byte| *byte == b'\n').collect();
    if lines.last().is_some_and(|last| last.is_empty()) {
        lines.pop();
    }
    let (mut text, mut open, mut cases, mut setup) = (String::new(), false, 0, Setup::new());
    for (index, line) in lines.into_iter().enumerate() {
        match read(line) {
            Line::Remark => (),
            Line::Malformed => text += &format!("malformed line {}\n", index + 1),
            Line::Entry(b'G', high, low) => {
                (cases, open) = (cases + 1, false);
                let steps = (u32::from(high) << 16) | u32::from(low);
                text += &case(cases, std::mem::replace(&mut setup, Setup::new()), steps);
            }
            Line::Entry(kind, number, word) => {
                open = true;
                setup.set(kind, number, word);
            }
        }
    }
    if open {
        text += &format!("unfinished case {}\n", cases + 1);
    }
    text
}
