//! The program: loads an image, makes a fixed number of steps and prints the registers.

use crate::image::load;
use crate::machine::run;
use crate::state::{State, DURATIONS, PAGE_REGISTERS, PORTS};

/// Words of memory that the program holds.
pub const PROGRAM_WORDS: usize = 16_384;
/// The most bytes of input that the program takes.
pub const PROGRAM_BYTES: usize = 32_768;
/// Steps that the program makes.
pub const PROGRAM_STEPS: u32 = 1_000;
/// The duration of every step of the program, in tenths of a microsecond.
pub const PROGRAM_DURATION: u16 = 100;

/// What the program prints for an input; given nothing, it runs the reset machine.
pub fn program(input: &[u8]) -> String {
    match loaded_and_run(input) {
        Ok(state) => print(&state, PROGRAM_STEPS),
        Err(refusal) => format!("refused {refusal}\n"),
    }
}

/// The state after loading and running, or the number of the refusal.
fn loaded_and_run(input: &[u8]) -> Result<State, u32> {
    if input.len() > PROGRAM_BYTES {
        return Err(13);
    }
    let mut memory = vec![0; PROGRAM_WORDS];
    let mut pages = [0; PAGE_REGISTERS];
    let mut ports = [0; PORTS];
    let mut state = load(input, &mut memory, &mut pages, &mut ports)?;
    let durations = [PROGRAM_DURATION; DURATIONS];
    run(&mut state, &mut memory, &mut pages, &mut ports, &durations, PROGRAM_STEPS)?;
    Ok(state)
}

/// The printed lines: the steps of the run, five registers by name, R0 to R7, R8 to R15.
pub fn print(state: &State, steps: u32) -> String {
    let State { r, ic, sw, mk, pi, ft, .. } = state;
    let line = |words: &[u16]| words.iter().map(|word| format!(" {word:04X}")).collect::<String>();
    format!(
        "steps {steps}\n\
         ic {ic:04X} sw {sw:04X} mk {mk:04X} pi {pi:04X} ft {ft:04X}\n\
         r0{}\n\
         r8{}\n",
        line(&r[..8]),
        line(&r[8..])
    )
}
