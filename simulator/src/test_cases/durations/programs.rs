//! Programs of some hundred steps with lists of durations made at random.

use crate::generator::Numbers;
use crate::test_cases::case::Case;
use crate::test_cases::programs;
use crate::DURATIONS;

/// The kinds of lists: what a machine may have, digits, borders, any numbers.
const KINDS: [&str; 4] = ["short", "shortest", "border", "any"];
/// Durations at the borders of what there is and of both timers' units.
const BORDERS: [u16; 9] = [0, 1, 99, 100, 101, 999, 1000, 1001, u16::MAX];

/// A case with a list of one kind.
fn listed(case: Case, kind: &str, numbers: &mut Numbers) -> Case {
    let case = case.also(&format!("{kind} durations"));
    (0..DURATIONS as u16).fold(case, |case, number| {
        let tenths = match kind {
            "short" => 5 + numbers.below(400) as u16,
            "shortest" => numbers.below(10) as u16,
            "border" => numbers.one_of(&BORDERS),
            _ => numbers.word(),
        };
        case.duration(number, tenths)
    })
}

/// For every interrupt a linkage area, a service block and a routine that returns at once; for BEX
/// with every number the routine of interrupt 5.
fn vectors(mut case: Case) -> Case {
    for number in 0..16 {
        let [linkage, service, routine] =
            [0x0300 + 4 * number, 0x0400 + 32 * number, 0x0700 + 2 * number];
        case = case.memory(32 + 2 * number, &[linkage, service]);
        case = case.memory(service, &[0xFFFF, 0, routine]).memory(routine, &[0x7D00, linkage]);
    }
    case.memory(0x04A2, &[0x070A; 16])
}

/// A loop that loads, halts, starts and reads both timers, whose interrupts come back to it.
fn two_timers() -> Case {
    let start = [0x8510, 0xFFF0, 0x8520, 0xFFFE, 0x8530, 0xFFFF, 0x4830, 0x2000];
    let code = [
        0x8243, 0x4810, 0x400A, 0x4820, 0x400E, // at 0108: R4 = 4, OTA, OTB
        0x4830, 0x2002, 0xA290, 0x4850, 0x4009, // at 010D: ENBL, a sum, TAH
        0xA290, 0x4850, 0x4008, 0x4860, 0xC00A, // a sum, TAS, ITA
        0x4850, 0x400D, 0xC190, 0x4870, 0xC00E, // TBH, a product, ITB
        0x4850, 0x400C, 0x7705, // TBS, BEX
        0x7340, 0x010D, 0x7070, 0x0108, // SOJ on R4 to ENBL, a jump to R4 = 4
    ];
    let case = Case::on("both timers and their interrupts", &start).memory(0x0108, &code);
    vectors(case).steps(400)
}

/// Opcodes on registers, and on a word of memory.
const REGISTERS: [u16; 18] = [
    0x51, 0x57, 0x60, 0x67, 0x6C, 0x81, 0x82, 0x83, 0xA1, 0xA2, 0xA9, 0xB1, 0xC1, 0xC9, 0xD1, 0xE3,
    0xE9, 0xF1,
];
const MEMORY: [u16; 14] =
    [0x50, 0x56, 0x80, 0x86, 0x8B, 0x90, 0x96, 0xA0, 0xA3, 0xA8, 0xB0, 0xC4, 0xE2, 0xF0];
/// Commands: the timers', ENBL, a port, and one that there is not.
const COMMANDS: [u16; 12] = [
    0x4008, 0x4009, 0x400A, 0x400C, 0x400D, 0x400E, 0xC00A, 0xC00E, 0x2002, 0x2002, 0x0001, 0x400B,
];
/// Words that fault or call: three illegal ones and BEX.
const EVENTS: [u16; 4] = [0xFE00, 0x4400, 0xFF01, 0x7703];

/// One instruction, or MOV with a load of its count before it.
fn instruction(numbers: &mut Numbers) -> Vec<u16> {
    let fields = numbers.word() & 0xFF;
    match numbers.below(12) {
        0..=3 => vec![(numbers.one_of(&REGISTERS) << 8) | fields],
        4..=6 => {
            let first = (numbers.one_of(&MEMORY) << 8) | (fields & 0xF0);
            vec![first, 0x2000 + numbers.below(0x100) as u16]
        }
        7..=9 => vec![0x4800 | (fields & 0xF0), numbers.one_of(&COMMANDS)],
        10 => vec![numbers.one_of(&EVENTS)],
        _ => vec![0x8250 | (fields & 0xF), 0x9348],
    }
}

/// A loop of random instructions on random registers, in which interrupts are enabled at random.
fn random(number: usize, numbers: &mut Numbers) -> Case {
    let mut code = vec![0x4800, 0x2002];
    (0..80).for_each(|_| code.extend(instruction(numbers)));
    code.extend([0x7070, 0x0100]);
    let registers: Vec<u16> = (0..16).map(|_| numbers.word()).collect();
    let case = Case::on(format!("random loop {number}"), &code).registers(0, &registers);
    let case = vectors(case).mk(numbers.word() | 0x0140).marks(0x000D);
    let case = case.timers(numbers.word(), numbers.word() | 0xFF00).steps(400);
    case.remainders(numbers.below(100) as u16, numbers.below(1000) as u16)
}

/// All cases of this file.
pub(super) fn cases(cases: &mut Vec<Case>) {
    let mut numbers = Numbers(17);
    let mut known = vec![two_timers()];
    programs::cases(&mut known);
    for kind in KINDS {
        cases.extend(known.iter().map(|case| listed(case.clone(), kind, &mut numbers)));
    }
    for number in 1..=20 {
        let case = random(number, &mut numbers);
        cases.push(listed(case, KINDS[number % 4], &mut numbers));
    }
}
