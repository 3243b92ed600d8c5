//! The status of every kind of access, under all address states and pages.

use crate::test_cases::case::Case;

/// Why an access is refused: name, page register, key. The lock is that of another key.
type Reason = (&'static str, u16, u16);
const OUTSIDE: Reason = ("outside", 0xF0FF, 3);
const LOCKED: Reason = ("lock 5, key 3", 0x5002, 3);
const PROTECTED: Reason = ("protected", 0x0802, 0);

/// A kind of access: its name, whether it is a fetch, whether E/W counts for it, and the entries of
/// a case that has it in a page of an address state.
struct Kind {
    name: &'static str,
    fetch: bool,
    protected: bool,
    entries: fn(Case, u16, u16) -> Case,
}

/// The two fetches. The first word of the second one is in a page open to every key.
const FETCHES: [Kind; 2] = [
    Kind {
        name: "first word",
        fetch: true,
        protected: true,
        entries: |case, _, page| case.ic((page << 12) | 0x0123),
    },
    Kind {
        name: "second word",
        fetch: true,
        protected: true,
        entries: |case, state, page| {
            let before = page.wrapping_sub(1) & 0xF;
            let case = case.memory(0x1FFF, &[0x8010]).ic((before << 12) | 0x0FFF);
            case.group_fetch_page(state, before, 0xF001)
        },
    },
];

/// The operands.
const OPERANDS: [Kind; 5] = [
    Kind {
        name: "operand of L",
        fetch: false,
        protected: false,
        entries: |case, state, page| code(case, state, [0x8010, page << 12]),
    },
    Kind {
        name: "operand of ST",
        fetch: false,
        protected: true,
        entries: |case, state, page| code(case, state, [0x9010, (page << 12) | 0x0FFF]),
    },
    Kind {
        name: "operand of INCM",
        fetch: false,
        protected: true,
        entries: |case, state, page| code(case, state, [0xA310, (page << 12) | 0x0765]),
    },
    Kind {
        name: "indirect word of LI",
        fetch: false,
        protected: false,
        entries: |case, state, page| code(case, state, [0x8410, (page << 12) | 0x0ABC]),
    },
    Kind {
        name: "operand of STI",
        fetch: false,
        protected: true,
        entries: |case, state, page| {
            let next = (page + 1) & 0xF;
            let case = code(case, state, [0x9410, (next << 12) | 0x0200]);
            case.memory(0x2200, &[(page << 12) | 0x0345]).group_page(state, next, 0xF002)
        },
    },
];

/// An instruction at 0100 in an address state whose first page is open for fetches.
fn code(case: Case, state: u16, words: [u16; 2]) -> Case {
    case.code(0x0100, &words).group_fetch(state)
}

/// One access refused in a page of an address state.
fn refused(kind: &Kind, state: u16, page: u16, (why, register, key): Reason) -> Case {
    let title = format!("status: {} in page {page} of state {state}, {why}", kind.name);
    let case = (kind.entries)(Case::new(title).sw((key << 4) | state), state, page);
    if kind.fetch {
        case.group_fetch_page(state, page, register)
    } else {
        case.group_page(state, page, register)
    }
}

/// All cases of this file: outside the memory every address state and every page, for the other
/// reasons some.
pub(super) fn cases(cases: &mut Vec<Case>) {
    for kind in FETCHES.iter().chain(&OPERANDS) {
        for state in 0..16 {
            cases.push(refused(kind, state, (7 * state + 3) % 16, OUTSIDE));
        }
        for state in [1, 6, 11, 12] {
            cases.push(refused(kind, state, (5 * state + 2) % 16, LOCKED));
            if kind.protected {
                cases.push(refused(kind, state, (3 * state + 8) % 16, PROTECTED));
            }
        }
    }
}
