//! The cases that another simulator is run on, by durations: the answers of the questions before a
//! run, the timers and remainders after each case of one step, and that no kind of step is missing.

use crate::cases::{cases, refused_cases, Case, Stage, MARKS, PI, REMAINDERS, TIMERS};
use crate::test_cases::{all_found, instructions};
use simulator::test_cases::answers;
use std::collections::BTreeSet;

/// The number that answers a run, 0 where it is accepted: the questions in their order.
fn answer(case: &Case) -> u32 {
    let [memory, pages, ports, durations] = case.lent;
    let questions = [
        (1, memory >= 4096 && memory.is_multiple_of(4096)),
        (2, pages == 512),
        (3, ports == 1024),
        (17, durations == 257),
        (4, case.steps <= 1_000_000),
        (5, case.counter() + u64::from(case.steps) <= u64::from(u32::MAX)),
    ];
    questions.into_iter().find(|(_, yes)| !yes).map_or(0, |(number, _)| number)
}

#[test]
fn answers_come_in_the_order_of_the_questions() {
    for case in cases().iter().chain(refused_cases()) {
        assert_eq!(case.answer, answer(case), "{}", case.title);
    }
    for case in refused_cases() {
        let known = if case.timed { REMAINDERS + 2 } else { REMAINDERS };
        assert_eq!(case.after[..known], case.before[..known], "{}", case.title);
        assert!(case.changed.is_empty(), "{}", case.title);
    }
}

#[test]
fn question_17_stands_after_3_and_before_4() {
    let found: BTreeSet<(u32, usize, bool)> = refused_cases()
        .iter()
        .map(|case| (case.answer, case.lent[3], case.steps > 1_000_000))
        .collect();
    for length in [0, 1, 255, 256] {
        all_found([(17, length, false), (17, length, true)], &found);
    }
    all_found([(1, 256, false), (2, 256, false), (3, 256, false)], &found);
    all_found([(1, 0, true), (3, 0, true), (4, 257, true), (5, 257, false)], &found);
}

/// The timers of a case: value, remainder and running mark of each.
type Timers = [(u16, u16, bool); 2];

/// The timers before the run.
fn timers_before(case: &Case) -> Timers {
    let timer = |number: usize, mark: u16| {
        let [value, remainder] = [TIMERS, REMAINDERS].map(|place| case.before[place + number]);
        (value, remainder, case.before[MARKS] & mark != 0)
    };
    [timer(0, 4), timer(1, 8)]
}

/// The command that sets PI.
const SPI: u16 = 0x2005;

/// The timers after a command, before the end of its step.
fn commanded(command: Option<u16>, value: u16, [a, b]: Timers) -> Timers {
    match command {
        Some(0x4008) => [(a.0, a.1, true), b],
        Some(0x4009) => [(a.0, a.1, false), b],
        Some(0x400A) => [(value, 0, true), b],
        Some(0x400C) => [a, (b.0, b.1, true)],
        Some(0x400D) => [a, (b.0, b.1, false)],
        Some(0x400E) => [a, (value, 0, true)],
        _ => [a, b],
    }
}

/// A timer at the end of a step, and whether it passed its end.
fn risen(timer: (u16, u16, bool), duration: u16, unit: u32) -> ((u16, u16, bool), bool) {
    let (value, remainder, true) = timer else {
        return (timer, false);
    };
    let tenths = u32::from(remainder) + u32::from(duration);
    let sum = u32::from(value) + tenths / unit;
    (((sum % 65_536) as u16, (tenths % unit) as u16, true), sum >= 65_536)
}

/// How far the one step of a case comes, as an entry or as an instruction, and the number of its
/// duration.
fn step_of(case: &Case) -> (Option<Stage>, u16) {
    let stage = case.entry().is_none().then(|| case.expected().0);
    match stage {
        None | Some(Stage::FirstFetch) => (stage, 256),
        Some(_) => (stage, case.fetched(0) >> 8),
    }
}

#[test]
fn timers_of_every_case_of_one_step() {
    for case in cases().iter().filter(|case| case.steps == 1) {
        let (stage, number) = step_of(case);
        let first = case.fetched(0);
        let done = (stage, number) == (Some(Stage::Done), 0x48);
        let command = done.then(|| case.direct(first));
        let value = case.before[usize::from((first >> 4) & 0xF)];
        let timers = commanded(command, value, timers_before(case));
        let duration = case.durations[usize::from(number)];
        for (number, (unit, bit, mark)) in [(100, 0x0100, 4), (1000, 0x0040, 8)].iter().enumerate()
        {
            let ((value, remainder, running), passed) = risen(timers[number], duration, *unit);
            let title = &case.title;
            assert_eq!(case.after[TIMERS + number], value, "{title}");
            assert_eq!(case.after[MARKS] & mark != 0, running, "{title}");
            assert!(!case.timed || case.after[REMAINDERS + number] == remainder, "{title}");
            assert!(!passed || case.after[PI] & bit != 0, "{title}: not pending");
            let new = case.after[PI] & !case.before[PI] & bit != 0;
            assert!(passed || !new || command == Some(SPI), "{title}: pending");
        }
    }
}

/// The timed cases of one step that run an instruction, with how far it comes.
fn timed() -> impl Iterator<Item = (&'static Case, u16, Stage)> {
    let timed = instructions().filter(|(case, ..)| case.timed);
    timed.map(|(case, first, _, stage)| (case, first, stage))
}

#[test]
fn every_opcode_has_a_duration_of_its_own() {
    let found: BTreeSet<u16> = timed()
        .filter(|(case, _, stage)| {
            let durations = &case.durations;
            let own = durations[usize::from(case.fetched(0) >> 8)];
            *stage > Stage::FirstFetch && durations.iter().filter(|d| **d == own).count() == 1
        })
        .map(|(_, first, _)| first >> 8)
        .collect();
    all_found(0..=0xFF, &found);
}

#[test]
fn every_fault_and_entry_has_its_duration() {
    let found: BTreeSet<Stage> = timed().map(|(.., stage)| stage).collect();
    let before_operands =
        [Stage::FirstFetch, Stage::Illegal, Stage::Privileged, Stage::SecondFetch];
    all_found(before_operands, &found);
    all_found([Stage::Command, Stage::Pointer, Stage::Operand, Stage::Done], &found);
    let entered: BTreeSet<u16> =
        cases().iter().filter(|case| case.timed).filter_map(Case::entry).collect();
    all_found(0..16, &entered);
}

#[test]
fn every_timer_command_with_marks_and_remainders() {
    let found: BTreeSet<(u16, u16, u16, u16)> = timed()
        .filter(|(_, first, stage)| (first >> 8, *stage) == (0x48, Stage::Done))
        .map(|(case, first, _)| {
            let duration = case.durations[0x48];
            (case.direct(first), case.before[MARKS], case.before[REMAINDERS], duration)
        })
        .collect();
    for command in [0x4008, 0x4009, 0x400A, 0x400C, 0x400D, 0x400E, 0xC00A, 0xC00E] {
        for (marks, remainder) in [(0, 0), (0, 99), (0, 100), (0, 65_535), (12, 0), (12, 65_535)] {
            all_found([0, 65_535].map(|tenths| (command, marks, remainder, tenths)), &found);
        }
    }
}

#[test]
fn programs_with_lists_of_durations() {
    let mixed = |case: &&Case| case.durations.iter().collect::<BTreeSet<_>>().len() > 5;
    let long = cases().iter().filter(|case| case.steps >= 60).filter(mixed).count();
    assert!(long >= 40, "{long} programs");
}

/// What is written for an input, but for the lines of registers.
fn written(input: &str) -> Vec<String> {
    let text = answers(input.as_bytes());
    let lines = text.lines().filter(|line| !["ic", "r0", "r8"].contains(&&line[..2]));
    lines.map(String::from).collect()
}

#[test]
fn remainders_are_written_where_a_duration_is_named() {
    let times = "ta 0001 tb 0000 marks 000C count 3";
    let found = written("D 0101 0000\nD 0000 0025\nG 0000 0003\n");
    assert_eq!(found, ["case 1 answer 0", "steps 3", times, "remainders 11 111"]);
    let found = written("S 001A 0063\nS 001B 03E7\nD 0100 0000\nG 0000 0000\n");
    let times = "ta 0000 tb 0000 marks 000C count 0";
    assert_eq!(found, ["case 1 answer 0", "steps 0", times, "remainders 99 999"]);
    let found = written("S 001A 0063\nS 001B 03E7\nL 0003 0101\nG 0000 0000\n");
    assert_eq!(found, ["case 1 answer 0", "steps 0", times]);
    let found = written("D 0000 0001\nL 0003 0100\nS 001A 0007\nG 0000 0001\n");
    assert_eq!(found, ["case 1 answer 17", "steps 0", times, "remainders 7 0"]);
}

#[test]
fn malformed_durations_change_nothing() {
    let times = "ta 0000 tb 0000 marks 000C count 0";
    let lines = ["D 0102 0000", "D FFFF 0000", "L 0003 0102", "L 0004 0000", "S 001D 0000"];
    for line in lines.into_iter().chain(["d 0000 0000", "D 0000 00ff", "D 0000 000"]) {
        let found = written(&format!("{line}\nG 0000 0000\n"));
        assert_eq!(found, ["malformed line 1", "case 1 answer 0", "steps 0", times], "{line}");
    }
}
