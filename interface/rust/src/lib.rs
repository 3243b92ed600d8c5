//! A software twin of the MIL-STD-1750A flight computer: a safe wrapper over its C interface.
//!
//! The caller lends memory, page registers and ports as slices of 16-bit words, and a [`State`]; to a run also the durations of
//! steps, by which the timers rise. A call is done, or is refused with the number of the first question that was answered by "no";
//! a refusal changes nothing.
//!
//! ```
//! let mut state = twin1750::State::reset();
//! let (mut memory, mut pages, mut ports) = (vec![0; 16384], vec![0; 512], vec![0; 1024]);
//! // one entry: the words 823F (R3 becomes 16) and 7900 (a branch to itself) from word 0 of memory on
//! let image = [0, 1, 0, 1, 0, 0, 0, 0, 0, 0, 0, 2, 0x82, 0x3F, 0x79, 0x00];
//! twin1750::load(&image, &mut state, &mut memory, &mut pages, &mut ports)?;
//! twin1750::run(1000, &twin1750::HUNDRED_EACH, &mut state, &mut memory, &mut pages, &mut ports)?;
//! assert_eq!((state.regs[3], state.ic, state.counter), (16, 1, 1000));
//! assert_eq!((state.timer_a, state.timer_b), (1000, 100));
//! # Ok::<(), twin1750::Refusal>(())
//! ```
//!
//! [`print`](fn@print) and [`read`] go between the words of an instruction and its mnemonic line:
//!
//! ```
//! use twin1750::{print, read, Words};
//! assert_eq!(print(0x823F, 0)?.as_str(), "LISP R3,16");
//! assert_eq!(read(b"LISP R3,16")?, Words::One(0x823F));
//! # Ok::<(), twin1750::Refusal>(())
//! ```

#![deny(unsafe_code)]
#![deny(missing_docs)]

pub mod layout;
mod library;
mod lines;
mod refusal;
mod state;

pub use layout::{DURATIONS, LINE_BYTES, STATE_WORDS, VERSION};
pub use library::{load_words, print_into, read_into, run_words};
pub use lines::{print, read, Line, Words};
pub use refusal::Refusal;
pub use state::State;

/// The durations of the program `twin`: 100 tenths of a microsecond for every step, the time in which timer A rises once.
pub const HUNDRED_EACH: [u16; DURATIONS] = [100; DURATIONS];

/// Loads an image: resets the machine, then writes the bodies. An image of no bytes leaves the machine as reset.
pub fn load(
    image: &[u8],
    state: &mut State,
    memory: &mut [u16],
    pages: &mut [u16],
    ports: &mut [u16],
) -> Result<(), Refusal> {
    let mut words = state.pack();
    load_words(image, &mut words, memory, pages, ports)?;
    *state = State::unpack(&words);
    Ok(())
}

/// Runs exactly as many steps as the budget says, each of which takes the duration of its opcode, 0 to 255, or the last of the list
/// where it fetches no first word: it enters an interrupt, or has its first fetch refused.
///
/// The durations are [`DURATIONS`] tenths of a microsecond; two runs may be lent different ones.
///
/// ```
/// let mut state = twin1750::State::reset();
/// let (mut memory, mut pages, mut ports) = (vec![0; 4096], vec![0; 512], vec![0; 1024]);
/// twin1750::load(&[], &mut state, &mut memory, &mut pages, &mut ports)?;
/// // the word 0000 is LB R12,0, of opcode 00: three steps of 37 tenths are 111
/// let mut durations = twin1750::HUNDRED_EACH;
/// durations[0x00] = 37;
/// twin1750::run(3, &durations, &mut state, &mut memory, &mut pages, &mut ports)?;
/// assert_eq!((state.timer_a, state.remainder_a), (1, 11));
/// assert_eq!((state.timer_b, state.remainder_b), (0, 111));
/// # Ok::<(), twin1750::Refusal>(())
/// ```
pub fn run(
    budget: u32,
    durations: &[u16],
    state: &mut State,
    memory: &mut [u16],
    pages: &mut [u16],
    ports: &mut [u16],
) -> Result<(), Refusal> {
    let mut words = state.pack();
    run_words(budget, durations, &mut words, memory, pages, ports)?;
    *state = State::unpack(&words);
    Ok(())
}
