//! The cases of the program `test_cases` as its input and its output have them: what each starts from,
//! what its first step is about to do, and what came of it.

use crate::forms::{form, Form};
use crate::opcodes::length;
use simulator::test_cases::{answers, input};
use std::collections::{BTreeMap, BTreeSet};
use std::sync::OnceLock;

/// Places in the words of the state.
pub const IC: usize = 16;
pub const SW: usize = 17;
pub const MK: usize = 18;
pub const PI: usize = 19;
pub const FT: usize = 20;
pub const MARKS: usize = 21;
/// Timer A, and after it timer B.
pub const TIMERS: usize = 22;
/// The counter's words, the high one first.
const COUNTER: usize = 24;
/// The remainder of timer A, and after it that of timer B.
pub const REMAINDERS: usize = 26;
/// The memory fault status.
pub const STATUS: usize = 28;
/// How many words of the state there are.
const WORDS: usize = 29;

/// The commands of 5.1 that the machine has: the first and the last code of each.
pub const COMMANDS: [(u16, u16); 13] = [
    (0x0000, 0x03FF),
    (0x2000, 0x2005),
    (0x200E, 0x200E),
    (0x4008, 0x400A),
    (0x400C, 0x400E),
    (0x5100, 0x52FF),
    (0x8000, 0x83FF),
    (0xA000, 0xA000),
    (0xA004, 0xA004),
    (0xA00D, 0xA00F),
    (0xC00A, 0xC00A),
    (0xC00E, 0xC00E),
    (0xD100, 0xD2FF),
];

/// Whether the machine has a command.
fn known(command: u16) -> bool {
    COMMANDS.iter().any(|(first, last)| (*first..=*last).contains(&command))
}

/// What an access does with its word.
#[derive(Clone, Copy, PartialEq, Eq)]
pub enum Access {
    Fetch,
    Read,
    Write,
}

impl Access {
    /// The memory fault status of an address whose page register refuses in a group.
    pub fn status(self, group: u16, address: u16) -> u16 {
        (address & 0xF000) | if self == Access::Fetch { 0x0010 } else { 0 } | (group & 0xF)
    }
}

/// What an instruction is given up for: the bit of FT, and the memory fault status where the lookup
/// refuses.
pub type Fault = (u16, Option<u16>);

/// A word of memory that an instruction touches; one that POPM skips is neither read nor written.
pub struct Touch {
    pub address: u16,
    read: bool,
    write: bool,
}

/// How far an instruction comes.
#[derive(Clone, Copy, Debug, PartialEq, Eq, PartialOrd, Ord)]
pub enum Stage {
    FirstFetch,
    Illegal,
    Privileged,
    SecondFetch,
    Command,
    Pointer,
    Operand,
    Done,
}

/// A case: its entries, and the state and the changed words after its run. The remainders after it
/// are known where the case is timed, which is where an entry names a duration.
pub struct Case {
    pub title: String,
    pub before: [u16; WORDS],
    memory: BTreeMap<u16, u16>,
    pages: [u16; 512],
    pub durations: Vec<u16>,
    pub timed: bool,
    pub lent: [usize; 4],
    pub steps: u32,
    pub answer: u32,
    pub after: [u16; WORDS],
    pub changed: BTreeMap<(char, u16), u16>,
}

/// The input and what is written for it, made once.
pub fn texts() -> &'static (String, String) {
    static TEXTS: OnceLock<(String, String)> = OnceLock::new();
    TEXTS.get_or_init(|| {
        let input = input();
        let output = answers(input.as_bytes());
        (input, output)
    })
}

/// Four hexadecimal digits.
fn hex(text: &str) -> u16 {
    u16::from_str_radix(text, 16).expect("four hexadecimal digits")
}

/// An entry: kind, number, word.
fn entry(line: &str) -> (char, u16, u16) {
    (line.chars().next().expect("a letter"), hex(&line[2..6]), hex(&line[7..11]))
}

/// The numbers of the malformed lines of the input, counted from 1.
fn malformed() -> BTreeSet<usize> {
    let lines = texts().1.lines().filter_map(|line| line.strip_prefix("malformed line "));
    lines.map(|number| number.parse().expect("the number of a line")).collect()
}

/// Every case with its number in its title: all but those that have malformed lines among their
/// entries. Malformed lines are passed over. First the accepted cases, then the refused ones.
fn all_cases() -> &'static [Vec<Case>; 2] {
    static CASES: OnceLock<[Vec<Case>; 2]> = OnceLock::new();
    CASES.get_or_init(|| {
        let (input, output) = texts();
        let malformed = malformed();
        let mut results = output.split("case ").skip(1);
        let (mut cases, mut case) = (Vec::new(), Case::new());
        for (_, line) in (1..).zip(input.lines()).filter(|(number, _)| !malformed.contains(number))
        {
            case.start(line);
            if line.starts_with('G') {
                case.end(results.next().expect("a result"));
                cases.push(std::mem::replace(&mut case, Case::new()));
            }
        }
        cases.retain(|case| case.number().is_some());
        let (accepted, refused) = cases.into_iter().partition(|case| case.answer == 0);
        [accepted, refused]
    })
}

/// Every accepted case.
pub fn cases() -> &'static [Case] {
    &all_cases()[0]
}

/// Every refused case.
pub fn refused_cases() -> &'static [Case] {
    &all_cases()[1]
}

impl Case {
    /// A case with everything as after reset.
    fn new() -> Case {
        let mut before = [0; WORDS];
        before[MARKS] = 0x000C;
        Case {
            title: String::new(),
            before,
            memory: BTreeMap::new(),
            pages: std::array::from_fn(|number| number as u16 % 16),
            durations: vec![100; 257],
            timed: false,
            lent: [0x4000, 0x0200, 0x0400, 0x0101],
            steps: 0,
            answer: 0,
            after: [0; WORDS],
            changed: BTreeMap::new(),
        }
    }

    /// Takes one line of the input.
    fn start(&mut self, line: &str) {
        if line.starts_with('#') {
            self.title = line.to_string();
            return;
        }
        let (kind, number, word) = entry(line);
        let index = usize::from(number);
        match kind {
            'S' => self.before[index] = word,
            'M' => _ = self.memory.insert(number, word),
            'P' => self.pages[index] = word,
            'D' if number == 0x0101 => (self.durations, self.timed) = (vec![word; 257], true),
            'D' => (self.durations[index], self.timed) = (word, true),
            'L' => self.lent[index] = usize::from(word),
            'G' => self.steps = (u32::from(number) << 16) | u32::from(word),
            _ => (),
        }
    }

    /// Takes what is written for the case: number and answer, steps, registers, times, changes.
    fn end(&mut self, text: &str) {
        let lines: Vec<&str> = text.lines().collect();
        let (number, answer) = lines[0].split_once(" answer ").expect("number and answer");
        assert!(self.number().is_none_or(|told| told == number), "{}: {number}", self.title);
        self.answer = answer.parse().expect("a number");
        let fields: Vec<&str> = lines[2].split(' ').collect();
        for (place, field) in (IC..).zip(fields.chunks(2)) {
            self.after[place] = hex(field[1]);
        }
        let registers = lines[3..5].iter().flat_map(|line| line.split(' ').skip(1));
        for (place, word) in registers.enumerate() {
            self.after[place] = hex(word);
        }
        self.end_times(&lines[5..]);
        self.end_status(&lines[6 + usize::from(self.timed)..]);
        let changes = lines[6..].iter().filter(|line| "MPO".contains(&line[..1]));
        self.changed = changes.map(|line| entry(line)).map(|(k, n, w)| ((k, n), w)).collect();
    }

    /// Takes the line of timers, marks and counter, and that of the remainders where there is one.
    fn end_times(&mut self, lines: &[&str]) {
        let times: Vec<&str> = lines[0].split(' ').collect();
        (self.after[TIMERS], self.after[TIMERS + 1]) = (hex(times[1]), hex(times[3]));
        self.after[MARKS] = hex(times[5]);
        let count: u32 = times[7].parse().expect("the counter");
        (self.after[COUNTER], self.after[COUNTER + 1]) = ((count >> 16) as u16, count as u16);
        let next = lines.get(1).and_then(|line| line.strip_prefix("remainders "));
        assert_eq!(next.is_some(), self.timed, "{}: remainders", self.title);
        for (place, number) in (REMAINDERS..).zip(next.into_iter().flat_map(|next| next.split(' ')))
        {
            self.after[place] = number.parse().expect("a remainder");
        }
    }

    /// Takes the line of the memory fault status, which stands first where it is not 0.
    fn end_status(&mut self, lines: &[&str]) {
        if let Some(word) = lines.first().and_then(|line| line.strip_prefix("mfs ")) {
            self.after[STATUS] = hex(word);
            assert_ne!(self.after[STATUS], 0, "{}: a status of 0", self.title);
        }
    }

    /// The number in the title, nothing for the cases with malformed lines among their entries.
    fn number(&self) -> Option<&str> {
        let (number, _) = self.title.strip_prefix("# ")?.split_once(' ')?;
        number.bytes().all(|byte| byte.is_ascii_digit()).then_some(number)
    }

    /// The counter before the run.
    pub fn counter(&self) -> u64 {
        u64::from(self.before[COUNTER]) << 16 | u64::from(self.before[COUNTER + 1])
    }

    /// IC before the run.
    pub fn ic(&self) -> u16 {
        self.before[IC]
    }

    /// The running key.
    pub fn key(&self) -> u16 {
        (self.before[SW] >> 4) & 0xF
    }

    /// The address state.
    pub fn group(&self) -> u16 {
        self.before[SW] & 0xF
    }

    /// CS before the run.
    pub fn condition(&self) -> u16 {
        self.before[SW] >> 12
    }

    /// MK, SW and IC after the run.
    pub fn new_state(&self) -> [u16; 3] {
        [self.after[MK], self.after[SW], self.after[IC]]
    }

    /// MK, SW and IC before it.
    pub fn old_state(&self) -> [u16; 3] {
        [self.before[MK], self.before[SW], self.before[IC]]
    }

    /// Whether interrupts are enabled after the run.
    pub fn enabled_after(&self) -> bool {
        self.after[MARKS] & 1 != 0
    }

    /// Whether interrupts are enabled, and whether the hold mark is set.
    pub fn enabled_and_held(&self) -> [bool; 2] {
        [1, 2].map(|bit| self.before[MARKS] & bit != 0)
    }

    /// The page register of an address in a group.
    pub fn register(&self, access: Access, group: u16, address: u16) -> u16 {
        let set = if access == Access::Fetch { 0 } else { 256 };
        self.pages[set + usize::from(((group & 0xF) << 4) | (address >> 12))]
    }

    /// The page register of an address in the running group.
    pub fn page(&self, access: Access, address: u16) -> u16 {
        self.register(access, self.group(), address)
    }

    /// The bit of FT that a page register sets for a key, nothing where it admits the access.
    pub fn refusal(&self, register: u16, key: u16, access: Access, address: u16) -> Option<u16> {
        let lock = register >> 12;
        let locked = lock != 0xF && key != 0 && key != lock;
        let protected = access != Access::Read && register & 0x0800 != 0;
        if locked || protected {
            Some(0x8000)
        } else {
            (place(register, address) >= self.lent[0]).then_some(0x0080)
        }
    }

    /// The fault of the lookup for the running key and group.
    pub fn refused(&self, access: Access, address: u16) -> Option<Fault> {
        let bit = self.refusal(self.page(access, address), self.key(), access, address)?;
        Some((bit, Some(access.status(self.group(), address))))
    }

    /// The word of memory that a page register leads to, before the run.
    pub fn word(&self, register: u16, address: u16) -> u16 {
        let place = u16::try_from(place(register, address)).unwrap_or(u16::MAX);
        self.memory.get(&place).copied().unwrap_or(0)
    }

    /// The same after the run.
    pub fn word_after(&self, register: u16, address: u16) -> u16 {
        let place = u16::try_from(place(register, address)).unwrap_or(u16::MAX);
        self.changed.get(&('M', place)).copied().unwrap_or_else(|| self.word(register, address))
    }

    /// The operand word at an address, before the run.
    pub fn operand(&self, address: u16) -> u16 {
        self.word(self.page(Access::Read, address), address)
    }

    /// The word that IC names, some words on.
    pub fn fetched(&self, distance: u16) -> u16 {
        let address = self.ic().wrapping_add(distance);
        self.word(self.page(Access::Fetch, address), address)
    }

    /// The word that follows the first one in memory, whatever page that is.
    pub fn following(&self) -> u16 {
        let place = place(self.page(Access::Fetch, self.ic()), self.ic()) + 1;
        u16::try_from(place).ok().and_then(|place| self.memory.get(&place)).copied().unwrap_or(0)
    }

    /// The interrupt that the first step enters.
    pub fn entry(&self) -> Option<u16> {
        let [enabled, held] = self.enabled_and_held();
        let masked = self.before[MK] & if enabled { 0xFFFF } else { 0x4000 };
        let takeable = self.before[PI] & (masked | 0x8400);
        (takeable != 0 && !held).then(|| takeable.leading_zeros() as u16)
    }

    /// The first word and the form of a case of one step that runs an instruction.
    pub fn instruction(&self) -> Option<(u16, Option<Form>)> {
        let first = self.fetched(0);
        (self.steps == 1 && self.entry().is_none()).then(|| (first, form(first)))
    }

    /// The second word plus the index.
    pub fn direct(&self, first: u16) -> u16 {
        let index = if first & 0xF == 0 { 0 } else { self.before[usize::from(first & 0xF)] };
        self.fetched(1).wrapping_add(index)
    }

    /// The derived address of an operand.
    fn derived(&self, first: u16, form: Form) -> u16 {
        let base = self.before[usize::from(12 + (form.opcode & 3))];
        let register = self.before[usize::from((first >> 4) & 0xF)];
        match form.opcode {
            0x00..=0x3F => base.wrapping_add(first & 0xFF),
            0x40..=0x43 if form.indexed => base.wrapping_add(self.before[usize::from(first & 0xF)]),
            0x40..=0x43 => base,
            0x7E => register.wrapping_sub(1),
            0x7F => register,
            _ if form.indirect() => self.operand(self.direct(first)),
            _ => self.direct(first),
        }
    }

    /// The words of memory that the instruction touches, in order.
    pub fn touches(&self, first: u16, form: Form) -> Vec<Touch> {
        let [read, write] = form.manner();
        let (a, b) = ((first >> 4) & 0xF, first & 0xF);
        let stack = self.before[15];
        let block = (b + 16 - a) % 16 + 1;
        let touch = |address, read| Touch { address, read, write };
        match form.opcode {
            0x8F => (0..block)
                .map(|distance| touch(stack.wrapping_add(distance), (a + distance) % 16 != 15))
                .collect(),
            0x9F => (1..=block).map(|back| touch(stack.wrapping_sub(back), read)).collect(),
            0x93 => self.moved(usize::from(a), usize::from(b)),
            _ => {
                let words = if form.block() { a + 1 } else { form.words() };
                let start = self.derived(first, form);
                (0..words).map(|distance| touch(start.wrapping_add(distance), read)).collect()
            }
        }
    }

    /// The two words of MOV, none where its count is 0.
    fn moved(&self, a: usize, b: usize) -> Vec<Touch> {
        if self.before[(a + 1) % 16] == 0 {
            return Vec::new();
        }
        let from = Touch { address: self.before[b], read: true, write: false };
        vec![from, Touch { address: self.before[a], read: false, write: true }]
    }

    /// How far the instruction comes by the page registers and the key, and what it is
    /// given up for.
    pub fn expected(&self) -> (Stage, Fault) {
        if let Some(fault) = self.refused(Access::Fetch, self.ic()) {
            return (Stage::FirstFetch, fault);
        }
        let first = self.fetched(0);
        let Some(form) = form(first) else {
            return (Stage::Illegal, (0x0040, None));
        };
        if form.privileged() && self.key() != 0 {
            return (Stage::Privileged, (0x0020, None));
        }
        let second = self.refused(Access::Fetch, self.ic().wrapping_add(1));
        if let (2, Some(fault)) = (length(first), second) {
            return (Stage::SecondFetch, fault);
        }
        if form.opcode == 0x48 && !known(self.direct(first)) {
            return (Stage::Command, (0x0400, None));
        }
        let pointer = self.refused(Access::Read, self.direct(first));
        if let (true, Some(fault)) = (form.indirect(), pointer) {
            return (Stage::Pointer, fault);
        }
        match self.operand_refusal(first, form) {
            Some(fault) => (Stage::Operand, fault),
            None => (Stage::Done, (0, None)),
        }
    }

    /// The fault of the first refused access to the operand.
    fn operand_refusal(&self, first: u16, form: Form) -> Option<Fault> {
        self.touches(first, form).iter().find_map(|touch| {
            let refused = |used: bool, access| used.then(|| self.refused(access, touch.address));
            let read = refused(touch.read, Access::Read).flatten();
            read.or_else(|| refused(touch.write, Access::Write).flatten())
        })
    }
}

/// The physical place of an address by its page register.
fn place(register: u16, address: u16) -> usize {
    4096 * usize::from(register & 0xFF) + usize::from(address & 0x0FFF)
}
