//! Several accesses of one instruction: the first refused one is shown.

use crate::test_cases::case::Case;

/// The pages in which the cases of this file have their accesses: some words before an edge, and
/// the words behind it.
const NEAR: u16 = 6;
const FAR: u16 = 7;
/// The last address before the edge.
const LAST: u16 = (FAR << 12) - 1;

/// Which of the two pages refuse: names and page registers, lock 5 and outside.
const REFUSING: [(&str, u16, u16); 5] = [
    ("near outside, far locked", 0xF004, 0x5003),
    ("near locked, far outside", 0x5002, 0xF004),
    ("both outside", 0xF004, 0xF005),
    ("far outside", 0xF002, 0xF004),
    ("far locked", 0xF002, 0x5003),
];

/// Key 3 and address state 9.
const SW: u16 = 0x0039;
const STATE: u16 = SW & 0xF;

/// A case in address state 9 with key 3 whose first page is open for fetches.
fn start(title: &str, code: &[u16]) -> Case {
    Case::on(format!("status: {title}"), code).sw(SW).group_fetch(STATE)
}

/// The two operand pages.
fn pages(case: Case, near: u16, far: u16) -> Case {
    case.group_page(STATE, NEAR, near).group_page(STATE, FAR, far)
}

/// Operands across the edge, upwards, and downwards with PSHM.
fn operands(cases: &mut Vec<Case>) {
    let instructions: [(&str, &[u16]); 6] = [
        ("DL", &[0x8610, LAST]),
        ("DST", &[0x9610, LAST]),
        ("EFL, two words before the edge", &[0x8A10, LAST - 1]),
        ("STM of 16 words", &[0x99F0, LAST - 14]),
        ("POPM R1,R4", &[0x8F14]),
        ("PSHM R1,R4", &[0x9F14]),
    ];
    for (name, code) in instructions {
        for (which, near, far) in REFUSING {
            let stack = if name.starts_with("PSHM") { LAST + 3 } else { LAST - 1 };
            let case = start(&format!("{name} across an edge, {which}"), code);
            cases.push(pages(case, near, far).registers(15, &[stack]));
        }
    }
}

/// MOV: the source in the near page, the target in the far one, and the other way round.
fn moves(cases: &mut Vec<Case>) {
    for (which, near, far) in REFUSING {
        let case = start(&format!("MOV from the near to the far page, {which}"), &[0x9348]);
        let case = case.registers(4, &[FAR << 12, 2]).registers(8, &[NEAR << 12]);
        cases.push(pages(case, near, far));
        let case = start(&format!("MOV from the far to the near page, {which}"), &[0x9348]);
        let case = case.registers(4, &[NEAR << 12, 2]).registers(8, &[FAR << 12]);
        cases.push(pages(case, near, far));
    }
}

/// Indirect words in the near page that lead to the far one.
fn indirect(cases: &mut Vec<Case>) {
    for (which, near, far) in REFUSING {
        for (name, code) in [("LI", 0x8410), ("STCI", 0x9210)] {
            let title = format!("{name}, indirect word near, operand far, {which}");
            let case = start(&title, &[code, LAST]).memory(0x2FFF, &[FAR << 12]);
            cases.push(pages(case, near, far));
        }
    }
}

/// Fetches before operands; a word that is not fetched is not looked up.
fn fetches(cases: &mut Vec<Case>) {
    let at_edge = |title: &str, first: u16| {
        let case = start(title, &[]).code(0x0FFF, &[first, LAST]);
        case.group_fetch_page(STATE, 1, 0x5001).mfs(0x1234)
    };
    cases.push(at_edge("second word and operand refused", 0x8010).group_page(STATE, NEAR, 0xF004));
    let case = at_edge("first and second word refused", 0x8010);
    cases.push(case.group_fetch_page(STATE, 0, 0xF010));
    cases.push(at_edge("illegal before a second word that would be refused", 0x4900));
    cases.push(at_edge("privileged before a second word that would be refused", 0x4800));
    cases.push(at_edge("one word before a page that refuses", 0x8213));
}

/// Both accesses of a read-modify-write, protection and end of the memory in one page register.
fn modified(cases: &mut Vec<Case>) {
    for (register, why) in [(0xF804, "outside and protected"), (0x5804, "locked too")] {
        for (name, code) in [("INCM", 0xA310), ("ST", 0x9010), ("L", 0x8010), ("SB", 0x5010)] {
            let case = start(&format!("{name}, {why}"), &[code, LAST]);
            cases.push(case.group_page(STATE, NEAR, register));
        }
    }
}

/// Operands from FFFF to 0000: page 15 or page 0 refuses.
fn wraps(cases: &mut Vec<Case>) {
    let instructions: [(&str, &[u16]); 4] = [
        ("DL", &[0x8610, 0xFFFF]),
        ("STM of 16 words", &[0x99F0, 0xFFF1]),
        ("PSHM R1,R4", &[0x9F14]),
        ("SJS", &[0x7EF0, 0x2000]),
    ];
    for (name, code) in instructions {
        for (last, first, which) in
            [(0xF00F, 0xF000, "page 15"), (0xF001, 0xF004, "page 0"), (0xF00F, 0xF004, "both")]
        {
            let stack = if name == "SJS" { 0 } else { 2 };
            let case = start(&format!("{name} across FFFF, {which} outside"), code);
            let case = case.registers(15, &[stack]).group_page(STATE, 15, last);
            cases.push(case.group_page(STATE, 0, first));
        }
    }
}

/// Words that an instruction leaves out, and the three words of LST.
fn others(cases: &mut Vec<Case>) {
    let case = start("POPM skips R15's word in a page that refuses", &[0x8FEF]).mfs(0x4321);
    cases.push(pages(case, 0xF002, 0x5003).registers(15, &[LAST]));
    let case = start("POPM after the word that it skips", &[0x8FF0]).mfs(0x4321);
    cases.push(pages(case, 0xF002, 0x5003).registers(15, &[LAST]));
    let case = start("MOV of no words from a page that refuses", &[0x9348]).mfs(0x4321);
    cases.push(pages(case, 0xF004, 0xF004).registers(8, &[LAST]));
    let case = start("URS from a page that refuses", &[0x7FF0]).registers(15, &[LAST + 1]);
    cases.push(pages(case, 0xF004, 0x5003));
    for back in [0, 1] {
        let title = format!("LST across an edge, {} words before it, far outside", back + 1);
        let case = start(&title, &[0x7D00, LAST - back]).sw(STATE);
        cases.push(pages(case, 0x0002, 0x0004));
    }
}

/// All cases of this file.
pub(super) fn cases(cases: &mut Vec<Case>) {
    operands(cases);
    moves(cases);
    indirect(cases);
    fetches(cases);
    modified(cases);
    wraps(cases);
    others(cases);
}
