//! The four functions of the static library, and safe functions over them: on the packed state, and on the buffers of lines.

use crate::layout::LINE_BYTES;
use crate::Refusal;

extern "C" {
    fn twin1750_load(
        image: *const u8,
        image_len: usize,
        state: *mut u16,
        state_len: usize,
        memory: *mut u16,
        memory_len: usize,
        pages: *mut u16,
        pages_len: usize,
        ports: *mut u16,
        ports_len: usize,
    ) -> u32;

    fn twin1750_run(
        budget: u32,
        durations: *const u16,
        durations_len: usize,
        state: *mut u16,
        state_len: usize,
        memory: *mut u16,
        memory_len: usize,
        pages: *mut u16,
        pages_len: usize,
        ports: *mut u16,
        ports_len: usize,
    ) -> u32;

    fn twin1750_print(first: u16, second: u16, line: *mut u8, length: *mut usize) -> u32;

    fn twin1750_read(line: *const u8, line_len: usize, words: *mut u16, count: *mut usize) -> u32;
}

/// Loads an image on a packed state of [`STATE_WORDS`](crate::STATE_WORDS) words (see [`State::pack`](crate::State::pack)).
/// An image of no bytes leaves the machine as reset.
#[allow(unsafe_code)]
pub fn load_words(
    image: &[u8],
    state: &mut [u16],
    memory: &mut [u16],
    pages: &mut [u16],
    ports: &mut [u16],
) -> Result<(), Refusal> {
    // SAFETY: each pointer and length are those of a slice, so they are valid for that many elements, aligned and not null. The
    // slices that are written are borrowed mutably, so no two of the five overlap. The library is proved to stay within the
    // lengths whatever they are, returns on every input, and keeps no pointer.
    let answer = unsafe {
        twin1750_load(
            image.as_ptr(),
            image.len(),
            state.as_mut_ptr(),
            state.len(),
            memory.as_mut_ptr(),
            memory.len(),
            pages.as_mut_ptr(),
            pages.len(),
            ports.as_mut_ptr(),
            ports.len(),
        )
    };
    Refusal::check(answer)
}

/// Runs with [`DURATIONS`](crate::DURATIONS) durations on a packed state of [`STATE_WORDS`](crate::STATE_WORDS) words (see
/// [`State::pack`](crate::State::pack)).
#[allow(unsafe_code)]
pub fn run_words(
    budget: u32,
    durations: &[u16],
    state: &mut [u16],
    memory: &mut [u16],
    pages: &mut [u16],
    ports: &mut [u16],
) -> Result<(), Refusal> {
    // SAFETY: as in `load_words`; the library only reads the durations.
    let answer = unsafe {
        twin1750_run(
            budget,
            durations.as_ptr(),
            durations.len(),
            state.as_mut_ptr(),
            state.len(),
            memory.as_mut_ptr(),
            memory.len(),
            pages.as_mut_ptr(),
            pages.len(),
            ports.as_mut_ptr(),
            ports.len(),
        )
    };
    Refusal::check(answer)
}

/// Prints an instruction into a buffer: its line at the start, whose length is left too; the other bytes stay. A refusal changes
/// neither. [`print`](fn@crate::print) has no buffer.
#[allow(unsafe_code)]
pub fn print_into(
    first: u16,
    second: u16,
    line: &mut [u8; LINE_BYTES],
    length: &mut usize,
) -> Result<(), Refusal> {
    // SAFETY: both pointers are of references, so they are valid, aligned and not null. The line has the bytes that the library
    // takes it to have, by its type; both are borrowed mutably, so they do not overlap. The library keeps no pointer.
    let answer = unsafe { twin1750_print(first, second, line.as_mut_ptr(), length) };
    Refusal::check(answer)
}

/// Reads a line into two words, and leaves how many they are; the second word of an instruction of one word is 0. A refusal changes
/// neither. [`read`](crate::read) has no buffers.
#[allow(unsafe_code)]
pub fn read_into(line: &[u8], words: &mut [u16; 2], count: &mut usize) -> Result<(), Refusal> {
    // SAFETY: the first pointer and length are those of a slice; the words are two, as the library takes them to be, by their
    // type. What is written is borrowed mutably, so no two of the three overlap. The library is proved to stay within the length
    // whatever it is, returns on every input, and keeps no pointer.
    let answer = unsafe { twin1750_read(line.as_ptr(), line.len(), words.as_mut_ptr(), count) };
    Refusal::check(answer)
}
