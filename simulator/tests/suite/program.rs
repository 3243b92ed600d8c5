//! The program: its printed lines byte for byte, and its refusals.

use simulator::{print, program, State};
use std::io::Write;
use std::process::{Command, Stdio};

const EXAMPLE: &[u8] = &[0, 1, 0, 1, 0, 0, 0, 0, 0, 0, 0, 2, 0x82, 0x3F, 0x79, 0x00];

const PRINTED: &str = "steps 1000\n\
    ic 0001 sw 4000 mk 0000 pi 0000 ft 0000\n\
    r0 0000 0000 0000 0010 0000 0000 0000 0000\n\
    r8 0000 0000 0000 0000 0000 0000 0000 0000\n";

/// What is printed for the reset machine: 0000 is LB with base R12 and displacement 0, so R2 = 0,
/// CS zero, IC past 1,000 words.
const RESET: &str = "steps 1000\n\
    ic 03E8 sw 2000 mk 0000 pi 0000 ft 0000\n\
    r0 0000 0000 0000 0000 0000 0000 0000 0000\n\
    r8 0000 0000 0000 0000 0000 0000 0000 0000\n";

/// What the program `simulate` prints.
fn simulate(input: &[u8]) -> String {
    let mut child = Command::new(env!("CARGO_BIN_EXE_simulate"))
        .stdin(Stdio::piped())
        .stdout(Stdio::piped())
        .spawn()
        .expect("the program starts");
    child.stdin.take().expect("its input").write_all(input).expect("the input is taken");
    let output = child.wait_with_output().expect("the program ends");
    String::from_utf8(output.stdout).expect("plain text")
}

#[test]
fn example() {
    assert_eq!(program(EXAMPLE), PRINTED);
    assert_eq!(simulate(EXAMPLE), PRINTED);
}

#[test]
fn refusal_of_a_long_input() {
    let whole = |bytes: usize| {
        let words = (bytes - 12) / 2;
        let mut image = vec![0, 1, 0, 1, 0, 0, 0, 0, 0, 0, (words >> 8) as u8, words as u8];
        image.resize(bytes, 0xFF);
        image
    };
    assert!(program(&whole(32_768)).starts_with("steps 1000\nic "));
    assert_eq!(program(&whole(32_770)), "refused 13\n");
    assert_eq!(program(&[0; 32_769]), "refused 13\n");
    assert_eq!(simulate(&[0; 32_769]), "refused 13\n");
}

#[test]
fn refusals_of_the_loader_are_printed() {
    assert_eq!(simulate(&[0]), "refused 6\n");
    assert_eq!(simulate(&[0xFF]), "refused 6\n");
    assert_eq!(simulate(&[0, 65]), "refused 7\n");
    assert_eq!(simulate(&[0, 1]), "refused 8\n");
    assert_eq!(program(&EXAMPLE[..15]), "refused 12\n");
}

#[test]
fn memory_of_the_program() {
    let image = |start: u16| {
        let [upper, lower] = start.to_be_bytes();
        program(&[0, 1, 0, 1, 0, 0, upper, lower, 0, 0, 0, 1, 0xFF, 0x00])
    };
    assert!(image(16_383).starts_with("steps 1000\n"));
    assert_eq!(image(16_384), "refused 10\n");
}

#[test]
fn nothing_runs_the_reset_machine() {
    assert_eq!(program(&[]), RESET);
    assert_eq!(program(&[0, 0]), RESET);
    assert_eq!(simulate(&[]), RESET);
    assert_eq!(simulate(&[0, 0]), RESET);
}

#[test]
fn an_input_that_cannot_be_read_is_nothing() {
    let folder = std::fs::File::open(env!("CARGO_MANIFEST_DIR")).expect("a folder");
    let output = Command::new(env!("CARGO_BIN_EXE_simulate"))
        .stdin(folder)
        .output()
        .expect("the program ends");
    assert!(output.status.success());
    assert_eq!(output.stdout, RESET.as_bytes());
}

#[test]
fn capital_letters_and_order() {
    let mut state = State { ic: 0xABCD, sw: 1, mk: 2, pi: 3, ft: 4, ..State::default() };
    state.r = std::array::from_fn(|number| 0xFA00 + number as u16);
    let expected = "steps 7\n\
        ic ABCD sw 0001 mk 0002 pi 0003 ft 0004\n\
        r0 FA00 FA01 FA02 FA03 FA04 FA05 FA06 FA07\n\
        r8 FA08 FA09 FA0A FA0B FA0C FA0D FA0E FA0F\n";
    assert_eq!(print(&state, 7), expected);
}
