//! Cases for this simulator and another beside it: an input of many small runs, and what comes of
//! each. docs/TEST-CASES.md has the format.

mod answer;
mod case;
mod commands;
mod durations;
mod edges;
mod entries;
mod known;
mod lines;
mod numbers;
mod opcodes;
mod programs;
mod readings;
mod rules;
mod status;
mod table;
mod wraps;

pub use answer::answers;
use case::Case;

/// The cases of all groups but those of durations and of the memory fault status.
fn cases() -> Vec<Case> {
    let mut cases = Vec::new();
    known::cases(&mut cases);
    opcodes::cases(&mut cases);
    rules::cases(&mut cases);
    numbers::cases(&mut cases);
    commands::cases(&mut cases);
    entries::cases(&mut cases);
    edges::cases(&mut cases);
    wraps::cases(&mut cases);
    readings::cases(&mut cases);
    programs::cases(&mut cases);
    lines::refusals(&mut cases);
    cases
}

/// The cases of durations, after the one that is left open before them.
fn timed_cases() -> Vec<Case> {
    let mut cases = vec![lines::left_open()];
    durations::cases(&mut cases);
    cases
}

/// The cases of the memory fault status, after the one that is left open before them.
fn status_cases() -> Vec<Case> {
    let mut cases = vec![lines::left_open_timed()];
    status::cases(&mut cases);
    cases
}

/// The lines of some cases, numbered from one on.
fn write(cases: &[Case], first: usize, text: &mut String) {
    for (number, case) in (first..).zip(cases) {
        case.write(number, text);
    }
}

/// The input: cases, then malformed lines within one case of their own; then the same of durations,
/// within two; then of the memory fault status.
pub fn input() -> String {
    let mut text = String::from("# Cases (docs/TEST-CASES.md), written by the second simulator.\n");
    let (cases, timed) = (cases(), timed_cases());
    write(&cases, 1, &mut text);
    lines::malformed(&mut text);
    write(&timed, cases.len() + 2, &mut text);
    lines::malformed_durations(&mut text);
    write(&status_cases(), cases.len() + timed.len() + 4, &mut text);
    lines::malformed_status(&mut text);
    text
}
