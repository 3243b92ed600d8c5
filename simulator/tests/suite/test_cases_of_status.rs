//! The cases that another simulator is run on, by the memory fault status: what each case of one
//! step leaves in it, and that no kind of refusal is missing.

use crate::cases::{cases, refused_cases, Access, Case, Stage, FT, STATUS, SW};
use crate::test_cases::{all_found, instructions};
use simulator::test_cases::answers;
use std::collections::BTreeSet;

/// The commands that clear and read the status.
const CLIR: u16 = 0x2001;
const RMFS: u16 = 0xA00D;

/// What an entry is refused: the words that it reads (both pointers, MK, SW, IC), the first store,
/// and the status that it leaves.
struct Entered {
    read: [bool; 5],
    stored: Option<u16>,
    state: u16,
    status: u16,
}

/// An entry by its pointers' address and the distance of its new IC.
fn entered(case: &Case, pointers: u16, distance: u16) -> Entered {
    let mut status = case.before[STATUS];
    let mut read = |address: u16| {
        let register = case.register(Access::Read, 0, address);
        let refused = case.refusal(register, 0, Access::Read, address).is_some();
        if refused {
            status = Access::Read.status(0, address);
        }
        (refused, if refused { 0 } else { case.word(register, address) })
    };
    let [(no_link, linkage), (no_service, service)] = [pointers, pointers + 1].map(&mut read);
    let [(no_mk, _), (no_sw, new), (no_ic, _)] =
        [0, 1, distance].map(|distance| read(service.wrapping_add(distance)));
    let stored = (0..3).find(|distance| {
        let address = linkage.wrapping_add(*distance);
        let register = case.register(Access::Write, new, address);
        case.refusal(register, 0, Access::Write, address).is_some()
    });
    if let Some(distance) = stored {
        status = Access::Write.status(new, linkage.wrapping_add(distance));
    }
    let read = [no_link, no_service, no_mk, no_sw, no_ic];
    Entered { read, stored, state: new & 0xF, status }
}

/// The entry of a case of one step, by an interrupt or by BEX, and whether it is BEX.
fn entry(case: &Case) -> Option<(bool, Entered)> {
    if let Some(number) = case.entry() {
        return Some((false, entered(case, 32 + 2 * number, 2)));
    }
    let (stage, first) = (case.expected().0, case.fetched(0));
    let bex = stage == Stage::Done && first >> 8 == 0x77;
    bex.then(|| (true, entered(case, 42, 2 + (first & 0xF))))
}

/// The cases of one step.
fn of_one_step() -> impl Iterator<Item = &'static Case> {
    cases().iter().filter(|case| case.steps == 1)
}

/// The status after a case of one step.
fn status_after(case: &Case) -> u16 {
    if let Some((_, entered)) = entry(case) {
        return entered.status;
    }
    let (stage, (_, status)) = case.expected();
    let first = case.fetched(0);
    match stage {
        Stage::Done if first >> 8 == 0x48 && case.direct(first) == CLIR => 0,
        _ => status.unwrap_or(case.before[STATUS]),
    }
}

#[test]
fn status_of_every_case_of_one_step() {
    let mut shown = 0;
    for case in of_one_step() {
        let status = status_after(case);
        assert_eq!(case.after[STATUS], status, "{}", case.title);
        shown += u32::from(status != 0);
    }
    assert!(shown > 2_800, "{shown} cases with a status");
}

#[test]
fn status_stays_without_a_step() {
    let idle = cases().iter().filter(|case| case.steps == 0);
    let given: BTreeSet<(u32, u16)> = idle
        .chain(refused_cases())
        .inspect(|case| assert_eq!(case.after[STATUS], case.before[STATUS], "{}", case.title))
        .map(|case| (case.answer, case.before[STATUS]))
        .collect();
    all_found([(0, 0xC005), (1, 0xABCD)], &given);
}

#[test]
fn every_access_in_every_state_and_page() {
    let stages = [Stage::FirstFetch, Stage::SecondFetch, Stage::Pointer, Stage::Operand];
    let refusals: Vec<(Stage, u16, u16)> = instructions()
        .filter_map(|(case, .., stage)| {
            let (_, (bit, status)) = case.expected();
            Some((stage, bit, status?))
        })
        .collect();
    let states: BTreeSet<(Stage, u16)> = refusals.iter().map(|(s, _, w)| (*s, w & 0xF)).collect();
    let pages: BTreeSet<(Stage, u16)> = refusals.iter().map(|(s, _, w)| (*s, w >> 12)).collect();
    let bits: BTreeSet<(Stage, u16, bool)> =
        refusals.iter().map(|(s, bit, w)| (*s, *bit, w & 0xF != 0)).collect();
    for stage in stages {
        all_found((0..16).map(|number| (stage, number)), &states);
        all_found((0..16).map(|number| (stage, number)), &pages);
        all_found([0x8000, 0x0080].map(|bit| (stage, bit, true)), &bits);
    }
}

/// The sets of refused words that an entry can read: the pointers and all else, or some of MK, SW
/// and IC on one side of an edge.
const READ: [[bool; 5]; 7] = [
    [true, true, true, true, true],
    [false, false, false, false, false],
    [false, false, true, false, false],
    [false, false, false, true, true],
    [false, false, true, true, false],
    [false, false, false, false, true],
    [false, false, true, true, true],
];

#[test]
fn every_set_of_refused_words_of_an_entry() {
    let found: BTreeSet<(bool, [bool; 5], Option<u16>, bool)> = of_one_step()
        .filter_map(entry)
        .map(|(bex, entered)| (bex, entered.read, entered.stored, entered.state != 0))
        .collect();
    for bex in [false, true] {
        all_found([(bex, READ[0], Some(0), false)], &found);
        for read in &READ[1..] {
            // The new SW counts as 0 where it is refused.
            let state = !read[3];
            let stores = [None, Some(0), Some(1), Some(2)];
            all_found(stores.map(|stored| (bex, *read, stored, state)), &found);
        }
    }
    let sets: BTreeSet<[bool; 5]> = found.iter().map(|(_, read, ..)| *read).collect();
    assert!(sets.iter().all(|set| READ.contains(set)), "{sets:?}");
    let states: BTreeSet<u16> = of_one_step()
        .filter_map(entry)
        .filter(|(_, entered)| entered.stored.is_some())
        .map(|(_, entered)| entered.state)
        .collect();
    all_found(0..16, &states);
}

#[test]
fn refusals_whose_bit_is_set_already() {
    let found: BTreeSet<(Stage, u16, bool)> = instructions()
        .filter_map(|(case, .., stage)| {
            let (_, (bit, status)) = case.expected();
            Some((stage, bit, (case.before[FT] & bit != 0) & (status? != case.before[STATUS])))
        })
        .collect();
    all_found([(Stage::Operand, 0x8000, true), (Stage::Operand, 0x0080, true)], &found);
    all_found([(Stage::FirstFetch, 0x0080, true)], &found);
}

#[test]
fn faults_of_other_kinds_leave_a_given_status() {
    let found: BTreeSet<(Stage, u16)> =
        instructions().map(|(case, .., stage)| (stage, case.before[STATUS])).collect();
    for stage in [Stage::Illegal, Stage::Privileged, Stage::Command, Stage::Done] {
        all_found([(stage, 0xC005), (stage, 0xABCD)], &found);
    }
}

#[test]
fn status_is_read_into_every_register() {
    let mut found = BTreeSet::new();
    for (case, first, _, stage) in instructions().filter(|(_, first, ..)| first >> 8 == 0x48) {
        if (case.direct(first), stage) == (RMFS, Stage::Done) {
            let a = usize::from((first >> 4) & 0xF);
            assert_eq!(case.after[a], case.before[STATUS], "{}", case.title);
            assert_eq!(case.after[SW], case.before[SW], "{}", case.title);
            found.insert((a, case.before[STATUS]));
        }
    }
    all_found((0..16).map(|a| (a, 0xABCD)), &found);
    all_found([0x0000, 0x0FE0, 0xFFFF].map(|status| (4, status)), &found);
}

/// What is written for an input, but for the lines of registers and times.
fn written(input: &str) -> Vec<String> {
    let text = answers(input.as_bytes());
    let lines = text.lines().filter(|line| !["ic", "r0", "r8", "ta"].contains(&&line[..2]));
    lines.map(String::from).collect()
}

#[test]
fn status_is_written_where_it_is_not_zero() {
    let start = ["case 1 answer 0", "steps 1"];
    let load = "M 0000 8010\nM 0001 C123\n";
    let found = written(&format!("{load}S 0011 0005\nG 0000 0001\n"));
    assert_eq!(found, [&start[..], &["mfs C005"]].concat());
    let found = written(&format!("{load}S 0011 0005\nD 0101 0019\nG 0000 0001\n"));
    assert_eq!(found, [&start[..], &["remainders 25 25", "mfs C005"]].concat());
    // The line stands before those of changed words.
    let found = written("S 001C 0FE0\nM 0000 9010\nM 0001 0300\nS 0001 0007\nG 0000 0001\n");
    assert_eq!(found, [&start[..], &["mfs 0FE0", "M 0300 0007"]].concat());
    let found = written("S 001C C005\nS 001C 0000\nG 0000 0001\n");
    assert_eq!(found, start);
    let found = written("M 0000 4800\nM 0001 2001\nS 001C C005\nG 0000 0001\n");
    assert_eq!(found, start);
    let found = written(&format!("{load}P 0000 0004\nP 010C 0004\nS 001C 0001\nG 0000 0001\n"));
    assert_eq!(found, [&start[..], &["mfs 0010"]].concat());
}

#[test]
fn malformed_words_of_the_state_change_nothing() {
    let lines = ["S 001D 0000", "S 001E C005", "S 011C C005", "S 001c C005", "S 001C C00"];
    for line in lines.into_iter().chain(["S 001CC005", "s 001C C005", "mfs C005"]) {
        let found = written(&format!("{line}\nG 0000 0000\n"));
        assert_eq!(found, ["malformed line 1", "case 1 answer 0", "steps 0"], "{line}");
    }
}
