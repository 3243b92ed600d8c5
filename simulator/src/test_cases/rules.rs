//! Jumps under every condition, branches under every status, shifts by every kind of count, bits,
//! limits, and the hold mark under an instruction that faults.

use super::case::{hex, Case};

/// Condition statuses: none, P, Z and N alone, C alone and with Z.
const STATUSES: [u16; 6] = [0x0, 0x4, 0x2, 0x1, 0x8, 0xA];

/// JC with every condition, and branches.
fn jumps(cases: &mut Vec<Case>) {
    for status in STATUSES {
        for condition in 0..16 {
            let title = format!("JC {condition:X} on CS {status:X}");
            let case = Case::on(title, &[0x7000 | (condition << 4), 0x0200]);
            cases.push(case.sw(status << 12));
        }
        for opcode in [0x74, 0x75, 0x76, 0x78, 0x79, 0x7A, 0x7B] {
            let title = format!("branch {opcode:02X} on CS {status:X}");
            cases.push(Case::on(title, &[(opcode << 8) | 0xF0]).sw(status << 12));
        }
    }
    for count in [0, 1, 2, 0x8000] {
        let case = Case::on(format!("SOJ with {count:04X}"), &[0x7340, 0x0200]);
        cases.push(case.registers(4, &[count]));
    }
    let case = Case::on("JCI not taken, pointer refused", &[0x7100, 0x2100]);
    cases.push(case.page(2, 0x0004));
    for (word, name) in [(0x7244, "JS"), (0x7344, "SOJ"), (0x7E44, "SJS")] {
        let case = Case::on(format!("{name} with RA = RX"), &[word, 0x0200]);
        cases.push(case.registers(4, &[0x0805]));
    }
}

/// Shifts whose count stands in a register: opcode, name.
const BY_REGISTER: [(u16, &str); 6] =
    [(0x6A, "SLR"), (0x6B, "SAR"), (0x6C, "SCR"), (0x6D, "DSLR"), (0x6E, "DSAR"), (0x6F, "DSCR")];

/// Shifts by counts up to and beyond the limits; of all ones, where only the last position of 16 or
/// 32 changes the sign, and of zero, where none does.
fn shifts(cases: &mut Vec<Case>) {
    let counts = [-128, -33, -32, -31, -17, -16, -15, -4, -1, 0, 1, 4, 15, 16, 17, 31, 32, 33, 127];
    for (opcode, name) in BY_REGISTER {
        let shift = |words: [u16; 2], count: i16| {
            let title = format!("{name} of {} by {count}", hex(&words));
            let case = Case::on(title, &[(opcode << 8) | 0x48]);
            case.registers(4, &words).registers(8, &[count as u16])
        };
        for count in counts {
            cases.push(shift([0x9ABC, 0xDEF1], count));
        }
        for count in [15, 16, 31, 32] {
            cases.push(shift([0xFFFF, 0xFFFF], count));
            cases.push(shift([0x0000, 0x0000], count));
        }
        cases.push(shift([0x0000, 0x0001], 31));
    }
}

/// MOV step by step, and with its registers side by side.
fn moves(cases: &mut Vec<Case>) {
    let words = [0x1111, 0x2222, 0x3333, 0x4444];
    let case = |code: u16, title: String| Case::on(title, &[code]).memory(0x0300, &words);
    for steps in 1..5 {
        let case = case(0x9348, format!("MOV of three words, {steps} steps")).steps(steps);
        cases.push(case.registers(4, &[0x0400, 3]).registers(8, &[0x0300]));
    }
    for second in [3, 4, 5, 6] {
        let case = case(0x9340 | second, format!("MOV R4,R{second}")).steps(2);
        cases.push(case.registers(3, &[0x0300, 0x0400, 3, 0x0301]));
    }
    let case = case(0x9348, "MOV with count 0".into());
    cases.push(case.registers(4, &[0x0400, 0]).registers(8, &[0x0300]));
}

/// Tests of bits 0 and 15, each 0 and 1; stores of a bit or a byte that change nothing.
fn bits(cases: &mut Vec<Case>) {
    for (opcode, name) in
        [(0x56, "TB"), (0x58, "TBI"), (0x59, "TSB"), (0x57, "TBR"), (0x5E, "TVBR")]
    {
        for (bit, word) in [(0, 0x8000), (0, 0x7FFF), (15, 0x0001), (15, 0xFFFE)] {
            let title = format!("{name} of bit {bit} of {word:04X}");
            // TBR and TVBR test R4, TVBR a bit whose number is in R5.
            let fields = if opcode == 0x5E { 0x54 } else { bit << 4 };
            let fields = if opcode == 0x57 { fields | 4 } else { fields };
            let case = Case::on(title, &[(opcode << 8) | fields, 0x2100]);
            let pointer = if opcode == 0x58 { 0x2200 } else { word };
            let case = case.registers(4, &[word, bit]).memory(0x2100, &[pointer]);
            cases.push(case.memory(0x2200, &[word]));
        }
    }
    for (word, name) in
        [(0x5000, "SB"), (0x5300, "RB"), (0x5900, "TSB"), (0x9740, "SRM"), (0x9B40, "STUB")]
    {
        for old in [0x0000, 0x8000] {
            let title = format!("{name} on {old:04X}, write protected");
            let case = Case::on(title, &[word, 0x2100]).page(2, 0x0802);
            cases.push(case.memory(0x2100, &[old]));
        }
    }
}

/// CBL with limits that are equal, in order, and not; INCM and DECM at the borders of the numbers.
fn borders(cases: &mut Vec<Case>) {
    for (low, high) in [(5, 5), (0xFFFE, 5), (5, 0xFFFE), (0x8000, 0x7FFF), (0x7FFF, 0x8000)] {
        for value in [0x8000, 0xFFFD, 0xFFFE, 4, 5, 6, 0x7FFF] {
            let title = format!("CBL of {value:04X} with limits {low:04X} and {high:04X}");
            let case = Case::on(title, &[0xF440, 0x2100]).registers(4, &[value]);
            cases.push(case.memory(0x2100, &[low, high]));
        }
    }
    for (opcode, name) in [(0xA3, "INCM"), (0xB3, "DECM")] {
        for (n, old) in [(1, 0x7FFF), (1, 0x8000), (1, 0xFFFF), (1, 0x0000), (16, 0x7FF8), (16, 8)]
        {
            let title = format!("{name} by {n} on {old:04X}");
            let case = Case::on(title, &[(opcode << 8) | ((n - 1) << 4), 0x2100]);
            cases.push(case.memory(0x2100, &[old]));
        }
    }
}

/// Loads whose CS depends on more than the first word.
fn loads(cases: &mut Vec<Case>) {
    for (opcode, name) in [(0x86, "DL"), (0x8A, "EFL")] {
        for words in [[0, 0x0100, 0], [0, 0x0005, 1], [0, 0x0005, 0], [0xFFFF, 0xFF05, 0xFFFF]] {
            let title = format!("{name} of {}", hex(&words));
            let case = Case::on(title, &[(opcode << 8) | 0x40, 0x2100]);
            cases.push(case.memory(0x2100, &words));
        }
    }
}

/// The hold mark is used up by an instruction that faults: then the interrupt is entered.
fn held(cases: &mut Vec<Case>) {
    let case = |code: u16, title: &str| {
        let case = Case::on(format!("hold used up by {title}"), &[code, 0x2100]);
        let case = case.marks(0x000F).mk(0x2000).pi(0x2000).steps(2).page(2, 0x0004);
        case.memory(36, &[0x0400, 0x0500]).memory(0x0500, &[0x0001, 0x0002, 0x0300])
    };
    cases.push(case(0x4400, "an illegal instruction"));
    cases.push(case(0x4840, "an unknown command"));
    cases.push(case(0x4840, "a privileged instruction").key(3));
    cases.push(case(0x8040, "a refused operand"));
    cases
        .push(case(0x8040, "a refused second fetch").code(0x0FFF, &[0x8040]).fetch_page(1, 0x0801));
    cases.push(case(0x8040, "a refused first fetch").fetch_page(0, 0x0800));
}

/// All cases of this group.
pub(crate) fn cases(cases: &mut Vec<Case>) {
    jumps(cases);
    shifts(cases);
    moves(cases);
    bits(cases);
    borders(cases);
    loads(cases);
    held(cases);
}
