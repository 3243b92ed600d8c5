//! Entries and BEX: every set of refused words that there can be, the last of which is shown.

use crate::test_cases::case::Case;

/// Where the new state is read: before this edge in page 7, frame 1, behind it in page 8, frame 2.
const SERVICE: u16 = 0x8000;
/// Where the old state is stored: before this edge in page 10, frame 3, behind it in page 11,
/// frame 1.
const LINKAGE: u16 = 0xB000;
/// The new MK, SW (key 4, address state 3) and IC.
const NEW: [u16; 3] = [0x0F0F, 0x2043, 0x0350];
/// A status before the run that no refusal of these cases gives.
const GIVEN: u16 = 0x9999;
/// Page registers that refuse: outside the memory, and write protected too.
const OUTSIDE: u16 = 0x0004;
const PROTECTED: u16 = 0x0804;

/// Which words are refused: how many of three stand before the edge, and which sides refuse.
type Refused = (&'static str, u16, [bool; 2]);

/// The words of the new state. All five that an entry reads are refused with the pointers' page.
const READ: [Refused; 7] = [
    ("no word", 3, [false, false]),
    ("MK", 1, [true, false]),
    ("SW and IC", 1, [false, true]),
    ("MK and SW", 2, [true, false]),
    ("IC", 2, [false, true]),
    ("all words in one page", 3, [true, false]),
    ("all words in two pages", 1, [true, true]),
];

/// The stores.
const STORED: [Refused; 6] = [
    ("no store", 3, [false, false]),
    ("all stores in two pages", 2, [true, true]),
    ("all stores in one page", 3, [true, false]),
    ("the first store", 1, [true, false]),
    ("the second store on", 1, [false, true]),
    ("the third store", 2, [false, true]),
];

/// What is entered: name, number, instruction at IC, distance of the new IC.
type Entry = (&'static str, u16, u16, u16);
const ENTRIES: [Entry; 3] =
    [("interrupt 4", 4, 0xFF00, 2), ("BEX 0", 5, 0x7700, 2), ("BEX 13", 5, 0x770D, 15)];

/// An entry from key 6 and address state 5, without its pointers.
fn start((name, number, first, _): Entry, title: &str) -> Case {
    let case = Case::on(format!("status: {name}, {title}"), &[first]).sw(0x2065).group_fetch(5);
    let pending = if number == 5 { 0 } else { 0x8000 >> number };
    case.mfs(GIVEN).mk(0xFFFF).pi(pending).marks(0x000D)
}

/// The address of some words before an edge; three are far from it.
fn before(edge: u16, words: u16) -> u16 {
    if words == 3 {
        edge - 0x0100
    } else {
        edge - words
    }
}

/// The new state across its edge.
fn service(case: Case, entry: Entry, (_, words, [near, far]): Refused) -> Case {
    let (_, number, _, distance) = entry;
    let (at, frame) =
        (before(SERVICE, words), |refused, frame| if refused { OUTSIDE } else { frame });
    let case = case.memory(33 + 2 * number, &[at]).page(7, frame(near, 1)).page(8, frame(far, 2));
    let place = at - (SERVICE - 0x2000);
    case.memory(place, &NEW[..2]).memory(place + distance, &NEW[2..])
}

/// The old state across its edge, in an address state; the sides that refuse do so in two ways.
fn linkage(case: Case, number: u16, state: u16, (_, words, [near, far]): Refused) -> Case {
    let register = |refused, bits, frame| if refused { bits } else { frame };
    let [first, second] = if words == 2 { [OUTSIDE, PROTECTED] } else { [PROTECTED, OUTSIDE] };
    let case = case.memory(32 + 2 * number, &[before(LINKAGE, words)]);
    let case = case.group_page(state, 10, register(near, first, 3));
    case.group_page(state, 11, register(far, second, 1))
}

/// Refused words of the new state with refused stores. The address state of the stores is 0 where
/// the new SW is refused.
fn subsets(cases: &mut Vec<Case>) {
    for entry in ENTRIES {
        for read in READ {
            let stores = if entry.3 == 2 { &STORED } else { &STORED[..2] };
            for stored in stores {
                let case = start(entry, &format!("{} and {} refused", read.0, stored.0));
                let sw_refused = read.0.contains("SW") || read.0.contains("all");
                let state = if sw_refused { 0 } else { NEW[1] & 0xF };
                let case = service(case, entry, read);
                cases.push(linkage(case, entry.1, state, *stored));
            }
        }
    }
}

/// The pages of the pointers outside: every word and the stores are refused in page 0.
fn pointers(cases: &mut Vec<Case>) {
    for entry in ENTRIES {
        cases.push(start(entry, "every word refused with the pointers").page(0, OUTSIDE));
    }
    for (register, what) in [(0x7000, "locked"), (0x0800, "protected")] {
        let case = start(ENTRIES[0], &format!("the page of the pointers {what} for others"));
        cases.push(case.page(0, register).memory(0x0028, &[0x0400, 0x0300]));
    }
}

/// The stores refused in every address state, the old one of which is another.
fn states(cases: &mut Vec<Case>) {
    for state in 0..16 {
        let case = start(ENTRIES[0], &format!("stores refused in state {state}"));
        let case = case.memory(0x0028, &[(state << 12) | 0x0FFF, 0x1300]);
        let case = case.memory(0x1300, &[0, state, 0x0300]).group_page(state, state, OUTSIDE);
        cases.push(case.group_page(state, (state + 1) % 16, PROTECTED));
    }
}

/// Entries without a refusal, entries after which interrupt 1 is entered, and refusals in pages of
/// other address states.
fn others(cases: &mut Vec<Case>) {
    for entry in ENTRIES {
        let case = start(entry, "pages of other states refuse").group_page(5, 0, OUTSIDE);
        let case = linkage(service(case, entry, READ[0]), entry.1, 3, STORED[0]);
        let case = case.group_page(5, 7, OUTSIDE).group_page(3, 7, OUTSIDE);
        cases.push(case.page(10, OUTSIDE).group_page(5, 10, OUTSIDE).page(2, OUTSIDE));
    }
    for steps in [1, 2] {
        let title = format!("interrupt 4 with refused stores, then interrupt 1, {steps} steps");
        let case =
            Case::on(format!("status: {title}"), &[0xFF00]).pi(0x0800).mk(0xFFFF).marks(0x000D);
        let case = case.memory(0x0028, &[0x5000, 0x0300]).memory(0x0300, &[0xFFFF, 0x0002, 0x0400]);
        cases.push(case.memory(0x0022, &[0x0500, 0x7FFE]).page(7, 0x0002).steps(steps));
    }
}

/// All cases of this file.
pub(super) fn cases(cases: &mut Vec<Case>) {
    subsets(cases);
    pointers(cases);
    states(cases);
    others(cases);
}
