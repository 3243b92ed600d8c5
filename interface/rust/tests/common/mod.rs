//! A machine for the tests, and images.

use twin1750::{load_words, run_words, Refusal, HUNDRED_EACH, STATE_WORDS};

/// A machine with a packed state; every word holds something, so that a change is seen.
#[derive(Clone, Debug, PartialEq)]
pub struct Machine {
    pub words: Vec<u16>,
    pub memory: Vec<u16>,
    pub pages: Vec<u16>,
    pub ports: Vec<u16>,
}

impl Machine {
    /// By the numbers of packed words, words of memory, page registers and ports.
    pub fn sized(words: usize, memory: usize, pages: usize, ports: usize) -> Machine {
        let filled = |n: usize, first: u16| (0..n).map(|k| first.wrapping_add(k as u16)).collect();
        Machine {
            words: filled(words, 0xA5A5),
            memory: filled(memory, 0x1234),
            pages: filled(pages, 0x4321),
            ports: filled(ports, 0x7777),
        }
    }

    /// One of the right sizes.
    pub fn new() -> Machine {
        Machine::sized(STATE_WORDS, 4096, 512, 1024)
    }

    pub fn load(&mut self, image: &[u8]) -> Result<(), Refusal> {
        load_words(image, &mut self.words, &mut self.memory, &mut self.pages, &mut self.ports)
    }

    /// Runs with steps of 100 tenths.
    pub fn run(&mut self, budget: u32) -> Result<(), Refusal> {
        self.run_for(budget, &HUNDRED_EACH)
    }

    /// Runs with any durations.
    pub fn run_for(&mut self, budget: u32, durations: &[u16]) -> Result<(), Refusal> {
        let Machine { words, memory, pages, ports } = self;
        run_words(budget, durations, words, memory, pages, ports)
    }

    /// The packed state as an array.
    pub fn state(&self) -> [u16; STATE_WORDS] {
        self.words[..].try_into().expect("as many words")
    }
}

/// The image of entries (kind, start, length), and of the words of the bodies.
pub fn image(entries: &[(u16, u32, u32)], bodies: &[u16]) -> Vec<u8> {
    let mut bytes = (entries.len() as u16).to_be_bytes().to_vec();
    for (kind, start, length) in entries {
        bytes.extend(kind.to_be_bytes());
        bytes.extend(start.to_be_bytes());
        bytes.extend(length.to_be_bytes());
    }
    bytes.extend(bodies.iter().flat_map(|word| word.to_be_bytes()));
    bytes
}
