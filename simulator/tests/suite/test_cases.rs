//! The cases that another simulator is run on: that the files kept for it are still what this one
//! writes, and that they show what docs/TEST-CASES.md says, by their entries and results.

use crate::cases::{cases, texts, Access, Case, Stage, COMMANDS, FT, IC, MK, PI, TIMERS};
use crate::forms::{form, forms, Form};
use crate::opcodes::length;
use std::collections::BTreeSet;
use std::path::PathBuf;

/// A file of the program `test_cases`.
fn kept(name: &str) -> String {
    let folder = PathBuf::from(env!("CARGO_MANIFEST_DIR")).join("../crates/test_cases");
    std::fs::read_to_string(folder.join(name)).expect("a kept file")
}

/// Checks a text line by line, so that a difference is found by its number.
fn same(kept: &str, written: &str) {
    for (number, (old, new)) in (1..).zip(kept.lines().zip(written.lines())) {
        assert_eq!(old, new, "line {number}");
    }
    assert!(kept == written, "one text is longer");
}

#[test]
fn kept_files_are_what_is_written() {
    let (input, output) = texts();
    same(&kept("stdin"), input);
    same(&kept("stdout"), output);
}

#[test]
fn every_refusal_and_malformed_lines() {
    let (input, output) = texts();
    for answer in [0, 1, 2, 3, 17, 4, 5] {
        assert!(output.contains(&format!(" answer {answer}\n")), "answer {answer}");
    }
    let (_, lines) = input.split_once("# malformed").expect("malformed lines");
    let malformed = output.lines().filter(|line| line.starts_with("malformed line ")).count();
    assert!(malformed >= 30 && malformed < lines.lines().count(), "{malformed} malformed lines");
    assert!(output.lines().any(|line| line.starts_with("unfinished case ")));
}

#[test]
fn titles_are_numbered_and_unlike_each_other() {
    let mut titles = BTreeSet::new();
    for (number, case) in (1..).zip(cases()) {
        let (counted, title) = case.title[2..].split_once(' ').expect("a number and a title");
        assert!(counted.parse::<usize>().is_ok_and(|counted| counted >= number), "{counted}");
        assert!(titles.insert(title), "twice: {title}");
    }
}

/// Checks that nothing of a list of wanted things is missing.
#[track_caller]
pub fn all_found<T: Ord + std::fmt::Debug>(
    wanted: impl IntoIterator<Item = T>,
    found: &BTreeSet<T>,
) {
    let missing: Vec<T> = wanted.into_iter().filter(|thing| !found.contains(thing)).collect();
    assert!(missing.is_empty(), "{} missing, the first: {:X?}", missing.len(), missing.first());
}

/// The cases of one step that run an instruction: case, first word, form where it is legal, and
/// how far it comes.
pub fn instructions() -> impl Iterator<Item = (&'static Case, u16, Option<Form>, Stage)> {
    cases().iter().filter_map(|case| {
        let (first, form) = case.instruction()?;
        Some((case, first, form, case.expected().0))
    })
}

#[test]
fn faults_are_those_of_page_registers_and_keys() {
    for (case, first, _, stage) in instructions() {
        let (_, (bit, _)) = case.expected();
        let title = &case.title;
        if stage == Stage::Done {
            let new = case.after[FT] & !case.before[FT];
            // BEX is an entry, which goes on where a word is refused.
            assert!(new == 0 || first >> 8 == 0x77, "{title}: FT {new:04X}");
            continue;
        }
        assert_eq!(case.after[FT], case.before[FT] | bit, "{title}");
        assert_eq!(case.after[PI] & 0x4000, 0x4000, "{title}");
        let words = 1 + u16::from(length(first) == 2 && stage > Stage::Privileged);
        assert_eq!(case.after[IC], case.ic().wrapping_add(words), "{title}: IC");
        assert_eq!(case.after[..16], case.before[..16], "{title}: registers");
        assert!(case.changed.is_empty(), "{title}: changed words");
    }
}

/// The stages after the first fetch at which a form can fault, but for the second fetch; the first
/// fetch where there is none.
fn faults(form: Form) -> Vec<Stage> {
    let stages = [
        (Stage::Privileged, form.privileged()),
        (Stage::Command, form.opcode == 0x48),
        (Stage::Pointer, form.indirect()),
        (Stage::Operand, form.touches()),
    ];
    let some: Vec<Stage> =
        stages.into_iter().filter(|(_, can)| *can).map(|(stage, _)| stage).collect();
    if some.is_empty() {
        vec![Stage::FirstFetch]
    } else {
        some
    }
}

#[test]
fn every_form_is_done_and_faults() {
    let found: BTreeSet<(Form, Stage)> =
        instructions().filter_map(|(_, _, form, stage)| Some((form?, stage))).collect();
    for form in forms() {
        all_found([(form, Stage::Done)], &found);
        all_found(faults(form).into_iter().map(|stage| (form, stage)), &found);
    }
}

#[test]
fn every_illegal_opcode_is_refused() {
    let found: BTreeSet<u16> = instructions()
        .filter(|(.., stage)| *stage == Stage::Illegal)
        .map(|(_, first, ..)| first >> 8)
        .collect();
    let legal = |opcode: u16| (0..=0xFF).all(|rest| form((opcode << 8) | rest).is_some());
    all_found((0..=0xFF).filter(|opcode| !legal(*opcode)), &found);
}

#[test]
fn every_command_is_done_and_refused() {
    let found: BTreeSet<(u16, bool, Stage)> = instructions()
        .filter(|(_, first, ..)| first >> 8 == 0x48)
        .map(|(case, first, _, stage)| (case.direct(first), first & 0xF != 0, stage))
        .collect();
    for (first, last) in COMMANDS {
        // Of a block of ports or page registers the ends, of the others each.
        let block = if last - first > 5 { vec![first, last] } else { (first..=last).collect() };
        for command in block {
            all_found([false, true].map(|indexed| (command, indexed, Stage::Done)), &found);
            all_found([(command, false, Stage::Privileged)], &found);
        }
        let beside = [first.wrapping_sub(1), last.wrapping_add(1)];
        all_found(beside.map(|command| (command, false, Stage::Command)), &found);
    }
    all_found([0x51FF, 0x5200, 0xD1FF, 0xD200].map(|c| (c, false, Stage::Done)), &found);
}

/// Whether a case shows an entry: MK, SW and IC are those of the service block that its pointers
/// lead to, the old ones stand in the linkage area, and interrupts are disabled.
fn enters(case: &Case, pointers: u16, distance: u16) -> bool {
    let at = |address: u16| {
        let register = case.register(Access::Read, 0, address);
        assert_eq!(case.refusal(register, 0, Access::Read, address), None, "{}", case.title);
        case.word(register, address)
    };
    let (linkage, service) = (at(pointers), at(pointers + 1));
    let new = [0, 1, distance].map(|distance| at(service.wrapping_add(distance)));
    let stored = [0, 1, 2].map(|distance| {
        let address = linkage.wrapping_add(distance);
        case.word_after(case.register(Access::Write, new[1], address), address)
    });
    let mut old = case.old_state();
    old[2] = old[2].wrapping_add(u16::from(case.entry().is_none()));
    new == case.new_state() && stored == old && new != old && !case.enabled_after()
}

/// The bits of PI that timers set in an entry: one that has passed its end is lower than before.
fn set_by_timers(case: &Case) -> u16 {
    let passed = |number: usize| case.after[TIMERS + number] < case.before[TIMERS + number];
    let bits = [(0, 0x0100), (1, 0x0040)].into_iter();
    bits.filter(|(number, _)| passed(*number)).map(|(_, bit)| bit).sum()
}

#[test]
fn every_interrupt_is_entered() {
    let mut found = BTreeSet::new();
    for case in cases().iter().filter(|case| case.steps == 1 && case.after[FT] == case.before[FT]) {
        let Some(number) = case.entry() else { continue };
        let bit = 0x8000 >> number;
        let cleared = bit & !set_by_timers(case);
        assert_eq!(case.before[PI] & !case.after[PI], cleared, "{}", case.title);
        assert!(enters(case, 32 + 2 * number, 2), "{}", case.title);
        found.insert((number, case.before[MK] & bit != 0, case.enabled_and_held()[0]));
    }
    all_found((0..16).map(|number| (number, true, true)), &found);
    // 0 and 5 need neither their mask bit nor interrupts enabled, 1 needs its mask bit.
    all_found([(0, false, false), (1, true, false), (5, false, false)], &found);
}

#[test]
fn every_interrupt_is_masked_disabled_and_held() {
    // The instruction runs and the bit stays: whether it is unmasked, enabled, held.
    let found: BTreeSet<(u16, bool, [bool; 2])> = instructions()
        .filter(|(case, .., stage)| *stage == Stage::Done && case.before[PI].count_ones() == 1)
        .filter(|(case, ..)| case.after[PI] == case.before[PI])
        .filter(|(case, ..)| case.after[IC] == case.ic().wrapping_add(1))
        .map(|(case, ..)| {
            let number = case.before[PI].leading_zeros() as u16;
            let unmasked = case.before[MK] & case.before[PI] != 0;
            (number, unmasked, case.enabled_and_held())
        })
        .collect();
    for number in 0..16 {
        all_found([(number, true, [true, true])], &found);
        if ![0, 5].contains(&number) {
            all_found([(number, false, [true, false]), (number, false, [false, false])], &found);
        }
        if ![0, 1, 5].contains(&number) {
            all_found([(number, true, [false, false])], &found);
        }
    }
}

#[test]
fn bex_enters_with_every_number() {
    let mut found = BTreeSet::new();
    for (case, first, _, stage) in instructions() {
        if (first >> 8, stage) == (0x77, Stage::Done) && case.after[FT] == 0 {
            assert!(enters(case, 42, 2 + (first & 0xF)), "{}", case.title);
            assert_eq!(case.after[PI] & 0x0400, 0, "{}", case.title);
            found.insert((first & 0xF, case.key() != 0));
        }
    }
    all_found((0..16).flat_map(|number| [(number, false), (number, true)]), &found);
}
