//! The image format: a table of entries, then their bodies; or no bytes, for the reset machine.

use crate::questions;
use crate::state::{reset, State, PAGE_REGISTERS};

/// The most entries of an image.
const ENTRY_LIMIT: usize = 64;
/// Bytes of one entry in the table.
const ENTRY_BYTES: usize = 10;

/// What an entry writes.
#[derive(Clone, Copy, PartialEq, Eq)]
enum Kind {
    Memory,
    Pages,
    Registers,
    Control,
}

/// One entry of the table: its target and the words from `start` to before `end`.
#[derive(Clone, Copy)]
struct Entry {
    kind: Kind,
    start: usize,
    end: usize,
}

impl Entry {
    /// Whether two entries share a word.
    fn meets(&self, other: &Entry) -> bool {
        self.kind == other.kind && self.start < other.end && other.start < self.end
    }
}

/// Resets everything and writes the bodies of an image; one of no bytes has none.
///
/// # Errors
/// 1 to 3 and 6 to 12, with everything unchanged.
pub fn load(
    image: &[u8],
    memory: &mut [u16],
    pages: &mut [u16],
    ports: &mut [u16],
) -> Result<State, u32> {
    questions::memory(memory)?;
    let pages = questions::pages(pages)?;
    let ports = questions::ports(ports)?;
    let (entries, bodies) = table(image, memory.len())?;
    let mut state = reset(memory, pages, ports);
    let mut words = bodies.chunks_exact(2).map(number);
    for entry in entries {
        for index in entry.start..entry.end {
            let word = words.next().unwrap_or(0) as u16;
            match entry.kind {
                Kind::Memory => memory[index] = word,
                Kind::Pages => pages[index] = word,
                Kind::Registers => state.r[index] = word,
                Kind::Control => set_control(&mut state, index, word),
            }
        }
    }
    Ok(state)
}

/// Kind 4: IC, SW, MK, PI, FT.
fn set_control(state: &mut State, index: usize, word: u16) {
    let targets = [&mut state.ic, &mut state.sw, &mut state.mk, &mut state.pi, &mut state.ft];
    *targets[index] = word;
}

/// The number in some bytes, the most significant first.
fn number(bytes: &[u8]) -> u64 {
    bytes.iter().fold(0, |value, byte| 256 * value + u64::from(*byte))
}

/// The checked entries and the bytes of their bodies. No bytes have neither, and are asked nothing
/// more: question 6 is "no bytes, or at least two?", and 7 to 12 are for those that have two.
fn table(image: &[u8], memory: usize) -> Result<(Vec<Entry>, &[u8]), u32> {
    if image.is_empty() {
        return Ok((Vec::new(), image));
    }
    let (count, rest) = image.split_at_checked(2).ok_or(6u32)?;
    let count = number(count) as usize;
    if count > ENTRY_LIMIT {
        return Err(7);
    }
    let (table, bodies) = rest.split_at_checked(ENTRY_BYTES * count).ok_or(8u32)?;
    let mut entries: Vec<Entry> = Vec::new();
    for bytes in table.chunks_exact(ENTRY_BYTES) {
        let entry = entry(bytes, memory)?;
        if entries.iter().any(|earlier| earlier.meets(&entry)) {
            return Err(11);
        }
        entries.push(entry);
    }
    let words: usize = entries.iter().map(|entry| entry.end - entry.start).sum();
    if bodies.len() != 2 * words {
        return Err(12);
    }
    Ok((entries, bodies))
}

/// One entry of the table: 9 for its kind, 10 for its extent.
fn entry(bytes: &[u8], memory: usize) -> Result<Entry, u32> {
    let (kind, target) = match number(&bytes[..2]) {
        1 => (Kind::Memory, memory),
        2 => (Kind::Pages, PAGE_REGISTERS),
        3 => (Kind::Registers, 16),
        4 => (Kind::Control, 5),
        _ => return Err(9),
    };
    let (start, length) = (number(&bytes[2..6]), number(&bytes[6..]));
    if length == 0 || start + length > target as u64 {
        return Err(10);
    }
    Ok(Entry { kind, start: start as usize, end: (start + length) as usize })
}
