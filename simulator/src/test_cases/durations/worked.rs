//! Cases whose results were worked out by hand.

use crate::test_cases::case::Case;

/// A case in which the durations that are not named are 0.
fn timed(title: &str, durations: &[(u16, u16)]) -> Case {
    let case = Case::new(title).durations(0);
    durations.iter().fold(case, |case, (number, tenths)| case.duration(*number, *tenths))
}

/// The reset machine: all steps of 100 tenths, of 37, and three of 100 before three of 50.
fn rates(cases: &mut Vec<Case>) {
    for steps in [10, 15] {
        let case = Case::new(format!("worked: {steps} steps of 100 tenths"));
        cases.push(case.durations(100).steps(steps));
    }
    for steps in [3, 28] {
        let title = format!("worked: {steps} steps of 37 tenths");
        cases.push(timed(&title, &[(0, 37)]).steps(steps));
    }
    let case = Case::new("worked: three steps of 100 tenths").durations(100).steps(3);
    cases.push(case);
    let case = Case::new("worked: three steps of 50 tenths after them").durations(50).steps(3);
    let case = case.ic(3).sw(0x2000).timers(3, 0).remainders(0, 300);
    cases.push(case.counter(3));
}

/// Faults: the duration of the opcode, or the last one where the first fetch is refused.
fn faults(cases: &mut Vec<Case>) {
    let case = timed("worked: first fetch refused", &[(256, 250)]);
    cases.push(case.fetch_page(0, 0x0800));
    let case = timed("worked: an illegal word", &[(0xFE, 30), (256, 999)]);
    cases.push(case.memory(0, &[0xFE00]));
    let case = timed("worked: a privileged instruction", &[(0x48, 40)]).sw(0x0010);
    cases.push(case.fetch_page(0, 0xF000).memory(0, &[0x4800]));
    let case = timed("worked: second fetch refused", &[(0x80, 40), (256, 999)]);
    cases.push(case.code(0x0FFF, &[0x8010]).fetch_page(1, 0x0004));
}

/// BEX, an entry and a MOV.
fn entries(cases: &mut Vec<Case>) {
    let durations = [(0x77, 300), (256, 7)];
    cases.push(timed("worked: BEX", &durations).memory(0, &[0x7700]));
    cases.push(timed("worked: an entry", &durations).memory(0, &[0x7700]).pi(0x8000));
    for steps in 1..=4 {
        let case = timed(&format!("worked: MOV of three words, {steps} steps"), &[(0x93, 60)]);
        let case = case.code(0x0100, &[0x9348]).registers(4, &[0x0400, 3]);
        cases.push(case.registers(8, &[0x0300]).steps(steps));
    }
}

/// Timer commands.
fn commands(cases: &mut Vec<Case>) {
    let case = timed("worked: OTA of FFFF", &[(0x48, 250)]).memory(0, &[0x4810, 0x400A]);
    cases.push(case.registers(1, &[0xFFFF]).remainders(99, 0));
    for steps in [1, 2] {
        let title = format!("worked: TAH, then TAS, {steps} steps");
        let case = timed(&title, &[(0x48, 90)]).memory(0, &[0x4810, 0x4009, 0x4810, 0x4008]);
        cases.push(case.timers(5, 0).remainders(60, 0).steps(steps));
    }
    let case = timed("worked: TAS of a halted timer", &[(0x48, 90)]).memory(2, &[0x4810, 0x4008]);
    cases.push(case.ic(2).timers(5, 0).remainders(60, 90).marks(0x0008));
    for steps in [5, 6, 10, 14, 15] {
        let case = Case::new(format!("worked: five NOPs, then OTB, {steps} steps"));
        let case = case.memory(0, &[0xFF00; 5]).memory(5, &[0x4810, 0x400E]);
        let case = case.memory(7, &[0xFF00; 9]).registers(1, &[7]);
        cases.push(case.durations(100).steps(steps));
    }
}

/// Timers that rise far in one step.
fn far(cases: &mut Vec<Case>) {
    let case = timed("worked: 656 rises of timer A", &[(0, u16::MAX)]);
    cases.push(case.timers(0xFFF0, 0).remainders(99, 0));
    let case = timed("worked: 656 rises of timer A and 66 of timer B", &[(0, u16::MAX)]);
    cases.push(case.timers(0xFFF0, 0xFFFF).remainders(99, 999));
}

/// All cases of this file.
pub(super) fn cases(cases: &mut Vec<Case>) {
    rates(cases);
    faults(cases);
    entries(cases);
    commands(cases);
    far(cases);
}
