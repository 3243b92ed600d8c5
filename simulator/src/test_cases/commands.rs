//! Every XIO command of 5.1 with key 0 and with another, and commands that there are not.

use super::case::Case;

/// The commands of section 5.1 that the machine has, some of each block of them.
const KNOWN: &[(u16, &str)] = &[
    (0x0000, "PO port 0"),
    (0x0123, "PO port 291"),
    (0x03FF, "PO port 1023"),
    (0x2000, "SMK"),
    (0x2001, "CLIR"),
    (0x2002, "ENBL"),
    (0x2003, "DSBL"),
    (0x2004, "RPI"),
    (0x2005, "SPI"),
    (0x200E, "WSW"),
    (0x4008, "TAS"),
    (0x4009, "TAH"),
    (0x400A, "OTA"),
    (0x400C, "TBS"),
    (0x400D, "TBH"),
    (0x400E, "OTB"),
    (0x5100, "WIPR group 0 page 0"),
    (0x5137, "WIPR group 3 page 7"),
    (0x51FF, "WIPR group 15 page 15"),
    (0x5200, "WOPR group 0 page 0"),
    (0x5237, "WOPR group 3 page 7"),
    (0x52FF, "WOPR group 15 page 15"),
    (0x8000, "PI port 0"),
    (0x8123, "PI port 291"),
    (0x83FF, "PI port 1023"),
    (0xA000, "RMK"),
    (0xA004, "RPIR"),
    (0xA00E, "RSW"),
    (0xA00F, "RCFR"),
    (0xC00A, "ITA"),
    (0xC00E, "ITB"),
    (0xD100, "RIPR group 0 page 0"),
    (0xD137, "RIPR group 3 page 7"),
    (0xD1FF, "RIPR group 15 page 15"),
    (0xD200, "ROPR group 0 page 0"),
    (0xD237, "ROPR group 3 page 7"),
    (0xD2FF, "ROPR group 15 page 15"),
];

/// The command that reads the memory fault status. The group of that status has more of it.
const RMFS: u16 = 0xA00D;

/// Commands that the machine does not have: left out of 5.1, reserved, or beside a known one; and
/// in its place among them RMFS.
const OTHERS: &[u16] = &[
    0x0400, 0x0800, 0x1FFF, 0x2006, 0x2007, 0x2008, 0x2009, 0x200A, 0x200B, 0x200C, 0x200D, 0x200F,
    0x2010, 0x20FF, 0x2100, 0x3000, 0x4000, 0x4001, 0x4002, 0x4003, 0x4007, 0x400B, 0x400F, 0x4010,
    0x5000, 0x50FF, 0x5300, 0x7FFF, 0x8400, 0x9000, 0x9FFF, 0xA001, 0xA002, 0xA003, 0xA005, 0xA00B,
    0xA00C, 0xA00D, 0xA010, 0xC000, 0xC001, 0xC002, 0xC009, 0xC00B, 0xC00D, 0xC00F, 0xD000, 0xD0FF,
    0xD300, 0xFFFF,
];

/// XIO R4 with a command, and the registers that a command can read or change.
fn registers(command: u16, title: String) -> Case {
    let case = Case::on(title, &[0x4840, command]).registers(4, &[0xBEE5]);
    case.mk(0x5A5A).pi(0x2180).ft(0x4112).timers(0x1234, 0x5678)
}

/// Ports that a command can read or change.
fn ports(case: Case) -> Case {
    case.port(0, 0x1111).port(291, 0x2222).port(1023, 0x3333)
}

/// XIO R4 with a command; all that a command can read or change is set.
fn command(command: u16, title: String) -> Case {
    ports(registers(command, title).counter(8))
}

/// The same where the run comes to a tenth step, in which timer B rises.
fn command_before_tenth(command: u16, title: String) -> Case {
    ports(registers(command, title).counted(8))
}

/// The cases that one number cannot show: pairs of steps, other registers and numbers.
fn details(cases: &mut Vec<Case>) {
    for number in 0..16 {
        let case = command(0x2004, format!("RPI {number}")).pi(0xFFFF).mk(0);
        cases.push(case.registers(4, &[0xFFF0 | number]).marks(0x000E));
    }
    let case = command(0xA00F, "RCFR with all pending, held".into()).pi(0xFFFF).marks(0x000E);
    cases.push(case.mk(0));
    for marks in 0..16 {
        for (code, name) in [(0x4008, "TAS"), (0x4009, "TAH"), (0x400C, "TBS"), (0x400D, "TBH")] {
            let case = command(code, format!("{name} on marks {marks}")).counted(9);
            cases.push(case.timers(0xFFFF, 0xFFFF).marks(marks).mk(0).pi(0));
        }
    }
    for (code, name) in [(0x400A, "OTA"), (0x400E, "OTB")] {
        let case = command(code, format!("{name} of FFFF")).counter(9).pi(0);
        cases.push(case.registers(4, &[0xFFFF]).marks(0));
    }
    for (code, name) in [(0x2002, "ENBL"), (0x2003, "DSBL"), (0x2005, "SPI")] {
        let start = |title: String| command_before_tenth(code, title).mk(0xFFFF);
        let case = start(format!("{name}, two steps")).steps(2);
        cases.push(case.pi(0).registers(4, &[0x2000]).marks(0x000D).memory(0x0102, &[0xFF00]));
        let case = start(format!("{name}, three steps")).steps(3);
        let case = case.pi(0x0004).registers(4, &[0x2000]).marks(0x000E);
        cases.push(case.memory(0x0102, &[0xFF00, 0xFF00]).memory(0x0024, &[0x0400, 0x0500]));
    }
    let case = command_before_tenth(0x200E, "WSW to key 3, then XIO again".into());
    let case = case.registers(4, &[0x0030]);
    cases.push(case.memory(0x0102, &[0x4840, 0x2000]).fetch_page(0, 0xF000).steps(2).mk(0).pi(0));
    let case = command_before_tenth(0x5200, "WOPR of page 0, then a store there".into());
    let case = case.mk(0).pi(0);
    let case = case.registers(4, &[0x0802]).memory(0x0102, &[0x9040, 0x0300]);
    cases.push(case.steps(2));
}

/// All cases of this group.
pub(crate) fn cases(cases: &mut Vec<Case>) {
    for &(code, name) in KNOWN {
        cases.push(command(code, format!("XIO {code:04X} {name}")).mk(0));
        cases.push(command(code, format!("XIO {code:04X} {name}")).mk(0).key(3).also("key 3"));
        let case = command(code.wrapping_sub(0x0100), format!("XIO {code:04X} {name} by index"));
        cases.push(case.memory(0x0100, &[0x4845]).registers(5, &[0x0100]).mk(0));
    }
    for &code in OTHERS {
        let name = if code == RMFS { "RMFS" } else { "unknown" };
        cases.push(command(code, format!("XIO {code:04X} {name}")).mk(0));
        cases.push(command(code, format!("XIO {code:04X} {name}")).mk(0).key(3).also("key 3"));
    }
    let case = command(0x1E00, "XIO 2006 unknown by index".into()).mk(0);
    cases.push(case.memory(0x0100, &[0x4845]).registers(5, &[0x0206]));
    let case = command(0x1F00, "XIO 2000 SMK by index, key 3".into()).mk(0).key(3);
    cases.push(case.memory(0x0100, &[0x4845]).registers(5, &[0x0100]));
    let case = command(0x2000, "XIO, second fetch refused".into()).mk(0).fetch_page(1, 0x0801);
    cases.push(case.code(0x0FFF, &[0x4840]));
    details(cases);
}
