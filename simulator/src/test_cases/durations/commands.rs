//! Commands and the remainders: a timer command's own step, and commands that leave the timers.

use crate::test_cases::case::Case;

/// The opcode of XIO.
const XIO: u16 = 0x48;
/// The timer commands.
const TIMER: [(u16, &str); 8] = [
    (0x4008, "TAS"),
    (0x4009, "TAH"),
    (0x400A, "OTA"),
    (0x400C, "TBS"),
    (0x400D, "TBH"),
    (0x400E, "OTB"),
    (0xC00A, "ITA"),
    (0xC00E, "ITB"),
];
/// Commands that have nothing to do with the timers.
const OTHERS: [(u16, &str); 17] = [
    (0x0123, "PO"),
    (0x2000, "SMK"),
    (0x2001, "CLIR"),
    (0x2002, "ENBL"),
    (0x2003, "DSBL"),
    (0x2004, "RPI"),
    (0x2005, "SPI"),
    (0x200E, "WSW"),
    (0x5137, "WIPR"),
    (0x5237, "WOPR"),
    (0x8123, "PI"),
    (0xA000, "RMK"),
    (0xA004, "RPIR"),
    (0xA00E, "RSW"),
    (0xA00F, "RCFR"),
    (0xD137, "RIPR"),
    (0xD237, "ROPR"),
];
/// Commands beside the timers' that there are not.
const UNKNOWN: [u16; 8] = [0x4007, 0x400B, 0x400F, 0x4010, 0xC009, 0xC00B, 0xC00D, 0xC00F];

/// XIO R4 with a command, of some tenths.
fn command(command: u16, title: String, tenths: u16) -> Case {
    let case = Case::on(title, &[0x4840, command]).registers(4, &[0xFFFE]);
    case.durations(7_777).duration(XIO, tenths).timers(0xFFFD, 0xFFFC)
}

/// Every timer command, on timers that run or are halted, with several remainders and durations.
fn timers(cases: &mut Vec<Case>) {
    for (code, name) in TIMER {
        for (a, b) in [(0, 0), (99, 999), (100, 1000), (u16::MAX, u16::MAX)] {
            for tenths in [0, 1, 250, u16::MAX] {
                for marks in [0x0000, 0x000C] {
                    let title = format!("{name}, {tenths} tenths on {a} and {b}, marks {marks}");
                    cases.push(command(code, title, tenths).remainders(a, b).marks(marks));
                }
            }
        }
    }
}

/// OTA and OTB of numbers near the end, of durations around one and two rises.
fn loads(cases: &mut Vec<Case>) {
    for (code, name, unit) in [(0x400A, "OTA", 100), (0x400E, "OTB", 1000)] {
        for value in [0xFFFE, 0xFFFF] {
            for tenths in [unit - 1, unit, 2 * unit - 1, 2 * unit] {
                let title = format!("{name} of {value:04X}, {tenths} tenths");
                let case = command(code, title, tenths).registers(4, &[value]);
                cases.push(case.remainders(99, 999).marks(0));
            }
        }
    }
}

/// Timer commands that are refused leave remainders and marks; commands that there are not too.
fn refused(cases: &mut Vec<Case>) {
    for (code, name) in TIMER {
        let case = command(code, format!("{name}, 30 tenths, key 3"), 30).key(3);
        cases.push(case.remainders(60, 600));
    }
    for code in UNKNOWN {
        let case = command(code, format!("XIO {code:04X} unknown, 30 tenths"), 30);
        cases.push(case.remainders(60, 600));
    }
    let case = command(0x400A, "OTA, second fetch refused, 30 tenths".into(), 30);
    let case = case.code(0x0FFF, &[0x4840]).fetch_page(1, 0x0801);
    cases.push(case.remainders(60, 600));
}

/// Every other command leaves the remainders to its own duration.
fn others(cases: &mut Vec<Case>) {
    for (code, name) in OTHERS {
        for (tenths, marks) in [(0, 0x000C), (30, 0x000C), (30, 0x0000)] {
            let title = format!("XIO {code:04X} {name}, {tenths} tenths, marks {marks}");
            let case = command(code, title, tenths).marks(marks);
            cases.push(case.registers(4, &[0x0102]).remainders(60, 600));
        }
    }
}

/// Timers halted, started and loaded one after another.
fn sequence(cases: &mut Vec<Case>) {
    let code = [
        [0x4840, 0x4009], // TAH
        [0xFF00, 0xFF00],
        [0x4840, 0x4008], // TAS
        [0xFF00, 0xFF00],
        [0x4840, 0x400D], // TBH
        [0x4850, 0xC00A], // ITA
        [0xFF00, 0xFF00],
        [0x4840, 0x400C], // TBS
        [0x4840, 0x400A], // OTA
        [0x4840, 0x400E], // OTB
        [0xFF00, 0xFF00],
        [0x4840, 0x4008], // TAS of a timer that runs
        [0x4840, 0x400C], // TBS of a timer that runs
        [0x4860, 0xC00E], // ITB
    ];
    for steps in 1..=18 {
        let title = format!("timers halted, started and loaded, {steps} steps");
        let case = Case::on(title, &code.concat()).registers(4, &[0xFFFE]);
        let case = case.durations(7_777).duration(XIO, 130).duration(0xFF, 70);
        cases.push(case.remainders(60, 600).steps(steps));
    }
}

/// All cases of this file.
pub(super) fn cases(cases: &mut Vec<Case>) {
    timers(cases);
    loads(cases);
    refused(cases);
    others(cases);
    sequence(cases);
}
