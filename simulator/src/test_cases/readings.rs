//! What page registers, address states and targets of jumps come to, where a reading is needed.

use super::case::Case;

/// Page registers: frames, reserved bits, frames outside the memory.
fn registers(cases: &mut Vec<Case>) {
    for register in [0x0000, 0x0001, 0x0003, 0x0702, 0xF702, 0x0004, 0x0010, 0x0080, 0x00FF] {
        let title = format!("page register {register:04X} for a load and a store");
        let case = Case::on(title, &[0x8010, 0x2200, 0x9010, 0x2201]).page(2, register);
        let case = case.memory(0x0200, &[1]).memory(0x1200, &[2]).memory(0x2200, &[3]);
        cases.push(case.memory(0x3200, &[4]).steps(2));
        let title = format!("page register {register:04X} for a fetch");
        let case = Case::new(title).fetch_page(2, register).ic(0x2200);
        let case = case.memory(0x0200, &[0x8201]).memory(0x1200, &[0x8212]);
        cases.push(case.memory(0x2200, &[0x8223]).memory(0x3200, &[0x8234]));
    }
    let case = Case::on("reserved bits of SW", &[0x8010, 0x2100]).sw(0x0F00);
    cases.push(case.memory(0x2100, &[0x8765]));
}

/// Address states: each has page registers of its own, for fetches and for operands.
fn states(cases: &mut Vec<Case>) {
    for state in 0..16 {
        let title = format!("address state {state}, its own pages");
        let case = Case::on(title, &[0x8010, 0x2100, 0x9010, 0x3100]).sw(state);
        let case = case.group_page(state, 2, 0x0001).group_page(state, 3, 0x0002).steps(2);
        cases.push(case.memory(0x1100, &[0x1234 + state]));
        let title = format!("address state {state}, other states refuse");
        let mut case = Case::on(title, &[0x8010, 0x2100]).sw(state).memory(0x2100, &[7]);
        for other in (0..16).filter(|other| *other != state) {
            case = case.group_page(other, 2, 0x0004);
        }
        cases.push(case);
    }
}

/// Targets in a protected page: no access of the jump, refused when fetched.
fn targets(cases: &mut Vec<Case>) {
    let jumps: [(&str, &[u16]); 6] = [
        ("JC", &[0x7070, 0x2300]),
        ("JS", &[0x7240, 0x2300]),
        ("SOJ", &[0x7350, 0x2300]),
        ("SJS", &[0x7E60, 0x2300]),
        ("URS", &[0x7F70]),
        ("LST", &[0x7D00, 0x0410]),
    ];
    for (name, code) in jumps {
        for steps in [1, 2] {
            let title = format!("{name} to a protected page, {steps} steps");
            let case = Case::on(title, code).fetch_page(2, 0x0802).steps(steps);
            let case = case.registers(5, &[2, 0x0410, 0x0412]);
            cases.push(case.memory(0x0410, &[0, 0, 0x2300]));
        }
    }
}

/// Two accesses that are refused for different reasons: the first one's bit is set.
fn order(cases: &mut Vec<Case>) {
    for (source, target) in [(0xF004, 0x5003), (0x5002, 0xF004), (0x5002, 0xF803), (0xF004, 0xF803)]
    {
        let title = format!("MOV from page {source:04X} to page {target:04X}");
        let case = Case::on(title, &[0x9348]).key(3).page(2, source).page(3, target);
        cases.push(case.registers(4, &[0x3100, 2]).registers(8, &[0x2100]));
    }
    for register in [0x5802, 0x5804, 0xF804, 0x5004] {
        for (code, name) in [(0x9040, "ST"), (0xA340, "INCM"), (0x8040, "L")] {
            let title = format!("{name} at page register {register:04X}, key 3");
            cases.push(Case::on(title, &[code, 0x2100]).key(3).page(2, register));
        }
        let title = format!("fetch at page register {register:04X}, key 3");
        let case = Case::new(title).key(3).fetch_page(2, register).ic(0x2100);
        cases.push(case.memory(0x2100, &[0x8213]));
    }
}

/// All cases of this group.
pub(crate) fn cases(cases: &mut Vec<Case>) {
    registers(cases);
    states(cases);
    targets(cases);
    order(cases);
}
