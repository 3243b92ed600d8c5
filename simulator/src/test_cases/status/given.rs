//! A status that stands before the run: what leaves it, what clears it, what reads it.

use crate::test_cases::case::Case;

/// The command that reads the status.
const RMFS: u16 = 0xA00D;
/// The command that clears it.
const CLIR: u16 = 0x2001;
/// A status as a refusal leaves it, and one with reserved bits.
const GIVEN: [u16; 2] = [0xC005, 0xABCD];

/// The commands besides RMFS, CLIR and RPI; some of each block.
const COMMANDS: [(u16, &str); 23] = [
    (0x0123, "PO"),
    (0x2000, "SMK"),
    (0x2002, "ENBL"),
    (0x2003, "DSBL"),
    (0x2005, "SPI"),
    (0x200E, "WSW"),
    (0x4008, "TAS"),
    (0x4009, "TAH"),
    (0x400A, "OTA"),
    (0x400C, "TBS"),
    (0x400D, "TBH"),
    (0x400E, "OTB"),
    (0x5137, "WIPR"),
    (0x5237, "WOPR"),
    (0x8123, "PI"),
    (0xA000, "RMK"),
    (0xA004, "RPIR"),
    (0xA00E, "RSW"),
    (0xA00F, "RCFR"),
    (0xC00A, "ITA"),
    (0xC00E, "ITB"),
    (0xD137, "RIPR"),
    (0xD2C5, "ROPR"),
];

/// A case with code and a status.
fn with(status: u16, title: &str, code: &[u16]) -> Case {
    Case::on(format!("status {status:04X}, {title}"), code).mfs(status)
}

/// XIO R4 with a command and a status, CS 1001, faults and pending interrupts.
fn command(status: u16, title: &str, code: u16) -> Case {
    let case = with(status, title, &[0x4840, code]).sw(0x9000).registers(4, &[0x0102]);
    case.ft(0x8480).pi(0x4180)
}

/// Every command leaves the status, CLIR clears it.
fn commands(cases: &mut Vec<Case>) {
    for (code, name) in COMMANDS {
        cases.push(command(GIVEN[1], &format!("XIO {code:04X} {name}"), code));
    }
    for number in [0, 1, 4, 15] {
        let case = command(GIVEN[1], &format!("RPI {number}"), 0x2004);
        cases.push(case.registers(4, &[number]).marks(0x000E));
    }
    for status in [0x0001, 0x0010, 0x8000, GIVEN[0], GIVEN[1], 0xFFFF] {
        cases.push(command(status, "CLIR", CLIR));
    }
    cases.push(command(GIVEN[0], "CLIR with key 3", CLIR).key(3));
    let case = command(GIVEN[0], "CLIR, second word refused", CLIR).code(0x0FFF, &[0x4840]);
    cases.push(case.fetch_page(1, 0x0801));
}

/// RMFS into every register, by an index, with keys, refused, with durations.
fn reads(cases: &mut Vec<Case>) {
    for a in 0..16 {
        let title = format!("RMFS into R{a}");
        let case = with(GIVEN[1], &title, &[0x4800 | (a << 4), RMFS]).sw(a << 12);
        cases.push(case.registers(a, &[0x1234]));
    }
    for status in [0x0000, 0x0001, 0x0010, 0x0800, 0x0FE0, 0x1000, 0x8000, 0xFFFF] {
        cases.push(command(status, "RMFS", RMFS));
    }
    let case = command(GIVEN[0], "RMFS by index", RMFS - 0x0100);
    cases.push(case.memory(0x0100, &[0x4845]).registers(5, &[0x0100]));
    let case = command(GIVEN[0], "RMFS into its index", 0x0001).memory(0x0100, &[0x4844]);
    cases.push(case.registers(4, &[RMFS - 1]));
    for key in [1, 3, 8, 15] {
        cases.push(command(GIVEN[0], &format!("RMFS with key {key}"), RMFS).key(key));
    }
    let case = command(GIVEN[0], "RMFS, second word refused", RMFS).code(0x0FFF, &[0x4840]);
    cases.push(case.fetch_page(1, 0x0004));
    for beside in [RMFS - 1, RMFS - 2, 0xA10D, 0x200D] {
        cases.push(command(GIVEN[0], &format!("XIO {beside:04X} unknown"), beside));
    }
    for (tenths, marks) in [(0, 0x000C), (30, 0x000C), (30, 0x0000)] {
        let title = format!("RMFS, {tenths} tenths, marks {marks}");
        let case = command(GIVEN[0], &title, RMFS).durations(7_777).duration(0x48, tenths);
        cases.push(case.remainders(60, 600).marks(marks));
    }
}

/// Faults that are no refusal of the lookup, and steps without a fault.
fn left(cases: &mut Vec<Case>) {
    for status in GIVEN {
        cases.push(with(status, "an illegal word", &[0xFE00]));
        cases.push(with(status, "VIO", &[0x4910, 0x2100]));
        cases.push(with(status, "an unknown extension", &[0x4A1C, 0x2100]).ft(0x8080));
        cases.push(with(status, "an unknown command", &[0x4840, 0x4000]));
        cases.push(with(status, "XIO with key 3", &[0x4840, 0x2000]).key(3));
        cases.push(with(status, "LST with key 3", &[0x7D00, 0x0400]).key(3));
        cases.push(with(status, "LSTI with key 3", &[0x7C00, 0x0400]).key(3));
        let case = with(status, "LST", &[0x7D00, 0x0400]).ft(0x8080);
        cases.push(case.memory(0x0400, &[0xFFFF, 0x7035, 0x0200]));
        cases.push(with(status, "a NOP", &[0xFF00]).ft(0xFFFF));
        cases.push(with(status, "an overflow", &[0xA112]).registers(1, &[0x7FFF, 0x7FFF]));
        cases.push(with(status, "no steps", &[0xFE00]).steps(0));
        cases.push(with(status, "a refused run", &[0xFE00]).lent(0, 4095));
        let case = with(status, "a timer that passes its end", &[0xFF00]);
        cases.push(case.timers(0xFFFF, 0).durations(100).remainders(0, 5));
    }
}

/// Refusals whose bit is in FT already, or that give the status that stands already.
fn set_before(cases: &mut Vec<Case>) {
    for ft in [0x8000, 0x0080, 0xFFFF] {
        let start = |title: &str, code: &[u16]| {
            with(GIVEN[0], &format!("{title}, FT {ft:04X}"), code).sw(0x0009).ft(ft).pi(0x4000)
        };
        cases.push(start("L outside", &[0x8010, 0xB234]));
        let case = start("ST write protected", &[0x9010, 0x2234]);
        cases.push(case.group_page(9, 2, 0x0802));
        cases.push(start("a fetch outside", &[]).ic(0xE123));
        let case = start("BEX with refused stores", &[0x7700]);
        cases.push(case.memory(42, &[0xD000, 0x0300]).memory(0x0300, &[0, 7, 0x0400]));
    }
    cases.push(with(GIVEN[0], "refused to the same status", &[0x8010, 0xC123]).sw(0x0005));
    cases.push(with(0x0FEF, "refused to 0000", &[0x8010, 0x0123]).page(0, 0x0004));
    cases.push(with(0xFFFF, "a fetch refused to 0010", &[]).ic(0x0100).fetch_page(0, 0x0800));
}

/// Faults in a row: the last one is shown, and RMFS and CLIR between them act on the one before.
fn rows(cases: &mut Vec<Case>) {
    let code = [
        0x8010, 0xC123, // L outside
        0x4820, RMFS, 0x9030, 0x2234, // ST write protected
        0x4840, RMFS, 0xFE00, // illegal
        0x4850, RMFS, 0x4800, CLIR, 0x4860, RMFS, 0x8470, 0x9ABC, // LI, indirect word outside
        0x4880, RMFS, 0x7070, 0xF123, // to a page outside
    ];
    for steps in 1..=13 {
        let case = Case::on(format!("status: faults in a row, {steps} steps"), &code).sw(0x7004);
        cases.push(case.group_page(4, 2, 0x0802).steps(steps));
    }
    let handler = [0x4820, RMFS, 0x4830, 0xA00F, 0x9020, 0x0700, 0x9030, 0x0701, 0x7D00, 0x0600];
    for steps in [1, 2, 3, 6, 7, 8, 9] {
        let title = format!("status: a handler of interrupt 1 reads it, {steps} steps");
        let case = Case::on(title, &[0x8010, 0xC123, 0x8213]).sw(0x0006).mk(0x4000);
        let case = case.memory(0x0022, &[0x0600, 0x0610]).memory(0x0610, &[0, 0, 0x0300]);
        cases.push(case.memory(0x0300, &handler).steps(steps));
    }
}

/// All cases of this file.
pub(super) fn cases(cases: &mut Vec<Case>) {
    commands(cases);
    reads(cases);
    left(cases);
    set_before(cases);
    rows(cases);
}
