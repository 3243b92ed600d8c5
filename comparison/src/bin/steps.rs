//! The program `steps`: one machine makes steps of one benchmark program, or prints or reads lines, for a tool that counts
//! instructions.
//!
//!     steps twin|simulator PROGRAM STEPS      PROGRAM is 0 to 3, in the order of the benchmark's table
//!     steps twin|simulator print|read LINES

use comparison::{programs, LegalLines, Simulated, Subject, Twin};
use std::hint::black_box;
use std::process::ExitCode;
use twin1750::HUNDRED_EACH;

/// Makes the steps, and answers the machine's number.
fn make(words: &[String]) -> Option<u32> {
    let [machine, program, steps] = words else { return None };
    let steps: u32 = steps.parse().ok()?;
    if let Some(way) = way(machine, program) {
        black_box(way(&LegalLines::default(), steps as usize));
        return Some(0);
    }
    let mut subject: Box<dyn Subject> = match machine.as_str() {
        "twin" => Box::new(Twin),
        "simulator" => Box::new(Simulated),
        _ => return None,
    };
    let (_, mut lent) = programs().into_iter().nth(program.parse().ok()?)?;
    Some(subject.run(steps, &HUNDRED_EACH, &mut lent))
}

/// The way of a machine through lines, if that is asked for.
fn way(machine: &str, program: &str) -> Option<fn(&LegalLines, usize) -> u64> {
    match (machine, program) {
        ("twin", "print") => Some(LegalLines::print_twin),
        ("twin", "read") => Some(LegalLines::read_twin),
        ("simulator", "print") => Some(LegalLines::print_simulator),
        ("simulator", "read") => Some(LegalLines::read_simulator),
        _ => None,
    }
}

fn main() -> ExitCode {
    let words: Vec<String> = std::env::args().skip(1).collect();
    match make(&words) {
        Some(0) => ExitCode::SUCCESS,
        Some(number) => {
            eprintln!("the run was refused: {number}");
            ExitCode::FAILURE
        }
        None => {
            eprintln!("usage: steps twin|simulator PROGRAM STEPS");
            eprintln!("       steps twin|simulator print|read LINES");
            ExitCode::FAILURE
        }
    }
}
