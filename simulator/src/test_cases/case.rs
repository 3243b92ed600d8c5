//! A case being written: what differs from reset, and how many steps are made.

/// Where a case's code starts, unless it says otherwise.
pub(crate) const CODE: u16 = 0x0100;
/// The number of IC among the words of the state.
const IC: u16 = 16;

/// Words in print, a blank between them.
pub(crate) fn hex(words: &[u16]) -> String {
    words.iter().map(|word| format!("{word:04X}")).collect::<Vec<_>>().join(" ")
}

/// A case: its title, its entries (kind letter, number, word) and the steps of its run.
#[derive(Clone)]
pub(crate) struct Case {
    title: String,
    entries: Vec<(char, u16, u16)>,
    steps: u32,
}

impl Case {
    /// A case of one step with everything as after reset.
    pub(crate) fn new(title: impl Into<String>) -> Case {
        Case { title: title.into(), entries: Vec::new(), steps: 1 }
    }

    /// A case of one step with some code at 0100 and IC on it.
    pub(crate) fn on(title: impl Into<String>, code: &[u16]) -> Case {
        Case::new(title).code(CODE, code)
    }

    /// Adds one entry.
    fn entry(mut self, kind: char, number: u16, word: u16) -> Case {
        self.entries.push((kind, number, word));
        self
    }

    /// More words in the title.
    pub(crate) fn also(mut self, words: &str) -> Case {
        self.title = format!("{}, {words}", self.title);
        self
    }

    /// Code at an address, and IC on it.
    pub(crate) fn code(self, at: u16, code: &[u16]) -> Case {
        self.memory(at, code).ic(at)
    }

    /// Words of memory from a physical address on, as far as there is memory.
    pub(crate) fn memory(mut self, at: u16, words: &[u16]) -> Case {
        for (number, word) in (at..0x4000).zip(words) {
            self.entries.push(('M', number, *word));
        }
        self
    }

    /// General registers from one on, wrapping from 15 to 0.
    pub(crate) fn registers(mut self, first: u16, words: &[u16]) -> Case {
        for (number, word) in (first..).zip(words) {
            self.entries.push(('S', number % 16, *word));
        }
        self
    }

    /// IC.
    pub(crate) fn ic(self, word: u16) -> Case {
        self.entry('S', IC, word)
    }

    /// SW.
    pub(crate) fn sw(self, word: u16) -> Case {
        self.entry('S', 17, word)
    }

    /// MK.
    pub(crate) fn mk(self, word: u16) -> Case {
        self.entry('S', 18, word)
    }

    /// PI.
    pub(crate) fn pi(self, word: u16) -> Case {
        self.entry('S', 19, word)
    }

    /// FT.
    pub(crate) fn ft(self, word: u16) -> Case {
        self.entry('S', 20, word)
    }

    /// The marks: 1 interrupts enabled, 2 hold, 4 timer A running, 8 timer B running.
    pub(crate) fn marks(self, word: u16) -> Case {
        self.entry('S', 21, word)
    }

    /// Timers A and B.
    pub(crate) fn timers(self, a: u16, b: u16) -> Case {
        self.entry('S', 22, a).entry('S', 23, b)
    }

    /// The step counter.
    pub(crate) fn counter(self, counter: u32) -> Case {
        self.entry('S', 24, (counter >> 16) as u16).entry('S', 25, counter as u16)
    }

    /// The step counter and the remainder that timer B has after so many steps of 100 tenths.
    pub(crate) fn counted(self, counter: u16) -> Case {
        self.entry('S', 27, counter % 10 * 100).entry('S', 25, counter)
    }

    /// The remainders of timers A and B.
    pub(crate) fn remainders(self, a: u16, b: u16) -> Case {
        self.entry('S', 26, a).entry('S', 27, b)
    }

    /// The memory fault status.
    pub(crate) fn mfs(self, word: u16) -> Case {
        self.entry('S', 28, word)
    }

    /// All durations.
    pub(crate) fn durations(self, tenths: u16) -> Case {
        self.entry('D', 257, tenths)
    }

    /// The duration of an opcode, or with 256 that of a step that fetches no first word.
    pub(crate) fn duration(self, number: u16, tenths: u16) -> Case {
        self.entry('D', number, tenths)
    }

    /// An instruction page register of group 0.
    pub(crate) fn fetch_page(self, page: u16, register: u16) -> Case {
        self.entry('P', page, register)
    }

    /// An operand page register of group 0.
    pub(crate) fn page(self, page: u16, register: u16) -> Case {
        self.entry('P', 256 + page, register)
    }

    /// An operand page register of any group.
    pub(crate) fn group_page(self, group: u16, page: u16, register: u16) -> Case {
        self.entry('P', 256 + 16 * group + page, register)
    }

    /// An instruction page register of any group.
    pub(crate) fn group_fetch_page(self, group: u16, page: u16, register: u16) -> Case {
        self.entry('P', 16 * group + page, register)
    }

    /// Page 0 of an address state as it is for fetches, open to every key.
    pub(crate) fn group_fetch(self, group: u16) -> Case {
        self.group_fetch_page(group, 0, 0xF000)
    }

    /// A port.
    pub(crate) fn port(self, number: u16, word: u16) -> Case {
        self.entry('O', number, word)
    }

    /// How many words of memory (0), page registers (1), ports (2), durations (3) the run is lent.
    pub(crate) fn lent(self, what: u16, words: u16) -> Case {
        self.entry('L', what, words)
    }

    /// How many steps the run makes.
    pub(crate) fn steps(mut self, steps: u32) -> Case {
        self.steps = steps;
        self
    }

    /// The key with which page 0 may still be fetched, read and written: its locks admit every key.
    pub(crate) fn key(self, key: u16) -> Case {
        self.sw(key << 4).fetch_page(0, 0xF000).page(0, 0xF000)
    }

    /// The lines of the case.
    pub(crate) fn write(&self, number: usize, text: &mut String) {
        text.push_str(&format!("# {number} {}\n", self.title));
        for (kind, index, word) in &self.entries {
            text.push_str(&format!("{kind} {index:04X} {word:04X}\n"));
        }
        text.push_str(&format!("G {:04X} {:04X}\n", self.steps >> 16, self.steps & 0xFFFF));
    }
}
