//! Random images: mostly valid, some damaged in each way, some of no bytes or of a single one.

use crate::numbers::Numbers;
use crate::words::edge;

/// Bytes of an entry in the table.
const ENTRY_BYTES: usize = 10;
/// The most entries of an image.
const ENTRY_LIMIT: u32 = 64;

/// One entry of an image.
#[derive(Clone, Copy)]
struct Entry {
    kind: u16,
    start: u32,
    length: u32,
}

/// How many words the target of a kind has.
fn target(kind: u16, memory: u32) -> u32 {
    match kind {
        1 => memory,
        2 => 512,
        3 => 16,
        _ => 5,
    }
}

/// An image for a memory of some words: one in sixteen has no bytes, one in sixteen a single byte.
pub fn image(numbers: &mut Numbers, memory: usize) -> Vec<u8> {
    match numbers.below(16) {
        0 => Vec::new(),
        1 => vec![numbers.pick(&[0, 1, 64, 65, 0xFF])],
        _ => tabled(numbers, memory),
    }
}

/// An image with a table; where there are no words of memory it is refused before it is looked at.
fn tabled(numbers: &mut Numbers, memory: usize) -> Vec<u8> {
    let memory = memory.max(1) as u32;
    let mut entries = entries(numbers, memory);
    let damage = if numbers.once_in(2) { 0 } else { 1 + numbers.below(8) };
    let mut bytes = match damage {
        1 => damaged_kind(numbers, &mut entries),
        2 => damaged_extent(numbers, &mut entries, memory),
        3 => damaged_by_sharing(numbers, &mut entries),
        _ => encoded(numbers, &entries),
    };
    match damage {
        4 => bytes.truncate(numbers.below(bytes.len() as u32) as usize),
        5 => bytes.truncate(numbers.below(2 + ENTRY_BYTES as u32) as usize),
        6 => {
            let count = numbers.pick(&[65, 66, 64, 0x0100, 0xFFFF]) as u16;
            bytes[..2].copy_from_slice(&count.to_be_bytes());
        }
        7 => bytes.extend((0..=numbers.below(3)).map(|byte| byte as u8)),
        8 => {
            let place = numbers.below(bytes.len() as u32) as usize;
            bytes[place] ^= 1 << numbers.below(8);
        }
        _ => {}
    }
    bytes
}

/// Entries that share no word: none, a few, as many as there may be, or the whole memory.
fn entries(numbers: &mut Numbers, memory: u32) -> Vec<Entry> {
    match numbers.below(16) {
        0 => (0..ENTRY_LIMIT).map(|n| Entry { kind: 1, start: 3 * n, length: 1 + n % 3 }).collect(),
        1 => vec![Entry { kind: 1, start: 0, length: memory }],
        2 => Vec::new(),
        _ => {
            let mut entries: Vec<Entry> = Vec::new();
            for _ in 0..=numbers.below(7) {
                let entry = entry(numbers, memory);
                if !entries.iter().any(|earlier| shares(earlier, &entry)) {
                    entries.push(entry);
                }
            }
            entries
        }
    }
}

/// Whether two entries share a word.
fn shares(one: &Entry, other: &Entry) -> bool {
    one.kind == other.kind
        && one.start < other.start + other.length
        && other.start < one.start + one.length
}

/// One entry within its target, often at an end of it.
fn entry(numbers: &mut Numbers, memory: u32) -> Entry {
    let kind = 1 + numbers.small(4);
    let size = target(kind, memory);
    let length = 1 + numbers.below(size.min(200));
    let start = numbers.below(size - length + 1);
    Entry { kind, start: numbers.pick(&[start, start, 0, size - length]), length }
}

/// Entries and random bodies as bytes; no body has more than a few thousand words.
fn encoded(numbers: &mut Numbers, entries: &[Entry]) -> Vec<u8> {
    let mut bytes = (entries.len() as u16).to_be_bytes().to_vec();
    for entry in entries {
        bytes.extend(entry.kind.to_be_bytes());
        bytes.extend(entry.start.to_be_bytes());
        bytes.extend(entry.length.to_be_bytes());
    }
    let words: u64 = entries.iter().map(|entry| u64::from(entry.length)).sum();
    for _ in 0..words.min(70_000) {
        bytes.extend(edge(numbers).to_be_bytes());
    }
    bytes
}

/// An image with an entry of an unknown kind.
fn damaged_kind(numbers: &mut Numbers, entries: &mut Vec<Entry>) -> Vec<u8> {
    let kind = numbers.pick(&[0, 5, 6, 0x0100, 0x0101, 0xFFFF]);
    insert(numbers, entries, Entry { kind, start: 0, length: 1 });
    encoded(numbers, entries)
}

/// An image with an entry that is empty or goes beyond its target.
fn damaged_extent(numbers: &mut Numbers, entries: &mut Vec<Entry>, memory: u32) -> Vec<u8> {
    let kind = 1 + numbers.small(4);
    let size = target(kind, memory);
    let (start, length) = numbers.pick(&[
        (0, 0),
        (size, 0),
        (size, 1),
        (size - 1, 2),
        (0, size + 1),
        (1, size),
        (u32::MAX, 1),
        (u32::MAX, u32::MAX),
        (1, u32::MAX),
        (0x8000_0000, 0x8000_0000),
        (0x0001_0000, 0xFFFF_0001),
    ]);
    insert(numbers, entries, Entry { kind, start, length });
    encoded(numbers, entries)
}

/// An image with two entries of a kind that share words, or just do not.
fn damaged_by_sharing(numbers: &mut Numbers, entries: &mut Vec<Entry>) -> Vec<u8> {
    let kind = 1 + numbers.small(4);
    let limits = numbers.pick(&[(2, 1), (0, 3), (1, 1), (0, 5), (3, 1), (0, 1), (4, 1)]);
    insert(numbers, entries, Entry { kind, start: 1, length: 2 });
    insert(numbers, entries, Entry { kind, start: limits.0, length: limits.1 });
    encoded(numbers, entries)
}

/// Puts an entry at any place in the table.
fn insert(numbers: &mut Numbers, entries: &mut Vec<Entry>, entry: Entry) {
    let place = numbers.below(entries.len() as u32 + 1) as usize;
    entries.insert(place, entry);
}
