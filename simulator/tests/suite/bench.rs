//! The test bench: a machine with its memory, and checks that read like sentences.

use simulator::{reset, run, State, DURATIONS};

/// Where the tests put their code.
pub const CODE: u16 = 0x0100;
/// The bits of FT that the address lookup sets.
pub const LOOKUP: u16 = 0x8080;

/// A machine with everything that is lent to it.
#[derive(Clone, Debug, PartialEq)]
pub struct Bench {
    pub state: State,
    pub memory: Vec<u16>,
    pub pages: Vec<u16>,
    pub ports: Vec<u16>,
    pub durations: Vec<u16>,
}

/// A machine of 65,536 words after reset, the code at 0100 and IC on it.
pub fn on(code: &[u16]) -> Bench {
    Bench::sized(65_536).memory(CODE, code).at(CODE)
}

impl Bench {
    /// A machine of some words after reset, every step of 100 tenths.
    pub fn sized(words: usize) -> Bench {
        let (mut memory, mut pages, mut ports) = (vec![0; words], vec![0; 512], vec![0; 1024]);
        let state = reset(&mut memory, &mut pages, &mut ports);
        Bench { state, memory, pages, ports, durations: vec![100; DURATIONS] }
    }

    /// Sets IC.
    pub fn at(mut self, ic: u16) -> Bench {
        self.state.ic = ic;
        self
    }

    /// Sets SW.
    pub fn sw(mut self, sw: u16) -> Bench {
        self.state.sw = sw;
        self
    }

    /// Sets registers from one on, wrapping from 15 to 0.
    pub fn with(mut self, first: usize, values: &[u16]) -> Bench {
        for (distance, value) in values.iter().enumerate() {
            self.state.r[(first + distance) % 16] = *value;
        }
        self
    }

    /// Sets words of memory from a physical address on.
    pub fn memory(mut self, address: u16, words: &[u16]) -> Bench {
        let start = usize::from(address);
        self.memory[start..start + words.len()].copy_from_slice(words);
        self
    }

    /// Sets the operand page register of a page in group 0.
    pub fn operand_page(mut self, page: usize, register: u16) -> Bench {
        self.pages[256 + page] = register;
        self
    }

    /// Sets the instruction page register of a page in group 0.
    pub fn instruction_page(mut self, page: usize, register: u16) -> Bench {
        self.pages[page] = register;
        self
    }

    /// Sets timers A and B.
    pub fn timers(mut self, a: u16, b: u16) -> Bench {
        (self.state.timer_a, self.state.timer_b) = (a, b);
        self
    }

    /// Sets the remainders of timers A and B.
    pub fn remainders(mut self, a: u16, b: u16) -> Bench {
        (self.state.remainder_a, self.state.remainder_b) = (a, b);
        self
    }

    /// Sets all durations.
    pub fn all(mut self, tenths: u16) -> Bench {
        self.durations.fill(tenths);
        self
    }

    /// Sets the duration of an opcode, or with 256 that of a step without a first word.
    pub fn lasting(mut self, number: usize, tenths: u16) -> Bench {
        self.durations[number] = tenths;
        self
    }

    /// Makes some steps.
    pub fn steps(mut self, budget: u32) -> Bench {
        let Bench { state, memory, pages, ports, durations } = &mut self;
        run(state, memory, pages, ports, durations, budget).expect("an accepted run");
        self
    }

    /// Makes one step.
    pub fn go(self) -> Bench {
        self.steps(1)
    }

    /// Checks registers from one on.
    #[track_caller]
    pub fn has(self, first: usize, values: &[u16]) -> Bench {
        for (distance, value) in values.iter().enumerate() {
            let number = (first + distance) % 16;
            let found = self.state.r[number];
            assert!(found == *value, "R{number} is {found:04X}, not {value:04X}");
        }
        self
    }

    /// Checks words of memory from a physical address on.
    #[track_caller]
    pub fn holds(self, address: u16, words: &[u16]) -> Bench {
        let start = usize::from(address);
        assert_eq!(&self.memory[start..start + words.len()], words, "memory at {address:04X}");
        self
    }

    /// Checks the condition status.
    #[track_caller]
    pub fn cs(self, condition: u16) -> Bench {
        let found = self.state.sw >> 12;
        assert!(found == condition, "CS is {found:04b}, not {condition:04b}");
        self
    }

    /// Checks IC.
    #[track_caller]
    pub fn ic(self, ic: u16) -> Bench {
        assert!(self.state.ic == ic, "IC is {:04X}, not {ic:04X}", self.state.ic);
        self
    }

    /// Checks PI.
    #[track_caller]
    pub fn pi(self, pi: u16) -> Bench {
        assert!(self.state.pi == pi, "PI is {:04X}, not {pi:04X}", self.state.pi);
        self
    }

    /// Checks FT.
    #[track_caller]
    pub fn ft(self, ft: u16) -> Bench {
        assert!(self.state.ft == ft, "FT is {:04X}, not {ft:04X}", self.state.ft);
        self
    }

    /// Checks the memory fault status.
    #[track_caller]
    pub fn mfs(self, mfs: u16) -> Bench {
        assert!(self.state.mfs == mfs, "MFS is {:04X}, not {mfs:04X}", self.state.mfs);
        self
    }

    /// Checks timer A and its remainder.
    #[track_caller]
    pub fn a(self, timer: u16, remainder: u16) -> Bench {
        let found = (self.state.timer_a, self.state.remainder_a);
        assert!(found == (timer, remainder), "A is {found:X?}, not {:X?}", (timer, remainder));
        self
    }

    /// Checks timer B and its remainder.
    #[track_caller]
    pub fn b(self, timer: u16, remainder: u16) -> Bench {
        let found = (self.state.timer_b, self.state.remainder_b);
        assert!(found == (timer, remainder), "B is {found:X?}, not {:X?}", (timer, remainder));
        self
    }

    /// Checks an accepted instruction: no faults, these pending interrupts, this CS.
    #[track_caller]
    pub fn fine(self, condition: u16, pi: u16) -> Bench {
        self.ft(0).pi(pi).cs(condition)
    }
}

/// Makes one step of 100 tenths and checks that it changes nothing but what a fault changes. The
/// memory fault status changes where the lookup refused, to one of the running address state.
#[track_caller]
pub fn refused(before: Bench, ft: u16, ic: u16) -> Bench {
    let after = before.clone().go();
    let mut expected = before;
    if ft & LOOKUP != 0 {
        expected.state.mfs = (after.state.mfs & 0xF010) | (expected.state.sw & 0xF);
    }
    expected.state.ft |= ft;
    expected.state.pi |= 0x4000;
    expected.state.ic = ic;
    expected.state.hold = false;
    expected.state.counter += 1;
    expected.state.timer_a = expected.state.timer_a.wrapping_add(1);
    expected.state.remainder_b += 100;
    assert_eq!(after.state, expected.state);
    assert!(after.memory == expected.memory, "memory has changed");
    assert!(after.pages == expected.pages, "page registers have changed");
    assert!(after.ports == expected.ports, "ports have changed");
    after
}

/// A small generator of numbers for tests of many cases.
pub struct Numbers(u64);

impl Numbers {
    /// A generator that always gives the same numbers.
    pub fn new(seed: u64) -> Numbers {
        Numbers(seed)
    }

    /// The next 32 bits.
    pub fn next(&mut self) -> u32 {
        self.0 =
            self.0.wrapping_mul(6_364_136_223_846_793_005).wrapping_add(1_442_695_040_888_963_407);
        ((self.0 >> 33) as u32) ^ ((self.0 >> 13) as u32)
    }

    /// The next word.
    pub fn word(&mut self) -> u16 {
        self.next() as u16
    }

    /// A word that is often at a border of the number range.
    pub fn edge(&mut self) -> u16 {
        const BORDERS: [u16; 10] =
            [0, 1, 2, 0x00FF, 0x7FFF, 0x8000, 0x8001, 0xFFFF, 0x4000, 0xC000];
        match self.next() % 3 {
            0 => BORDERS[self.next() as usize % BORDERS.len()],
            _ => self.word(),
        }
    }
}
