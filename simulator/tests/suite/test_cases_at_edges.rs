//! The cases that another simulator is run on, at edges: every access of several words across the
//! edge of a page under three keys, and across the end of the addresses and of the registers.

use crate::cases::{Access, Case, Stage};
use crate::forms::{forms, Form};
use crate::opcodes::length;
use crate::test_cases::{all_found, instructions};
use std::collections::BTreeSet;

/// What the page behind an edge is.
#[derive(Clone, Copy, Debug, PartialEq, Eq, PartialOrd, Ord)]
enum Behind {
    Lock5,
    Protected,
    Outside,
    /// In a frame that is not the next one, so that the next word of memory is another.
    Apart,
}

/// Keys: the one of lock 5, a wrong one, zero.
const KEYS: [u16; 3] = [5, 3, 0];

/// What the page behind an edge is, by the page registers on both sides; nothing where the first
/// one is not open to every key.
fn behind(first: u16, second: u16) -> Vec<Behind> {
    let (frame, next) = (second & 0xFF, (first & 0xFF) + 1);
    let kinds = [
        (Behind::Lock5, second >> 8 == 0x50 && frame < 4),
        (Behind::Protected, second >> 8 == 0xF8 && frame < 4),
        (Behind::Outside, second >> 8 == 0xF0 && frame >= 4),
        (Behind::Apart, [0x50, 0xF0].contains(&(second >> 8)) && frame < 4 && frame != next),
    ];
    let open = first >> 8 == 0xF0 && first & 0xFF < 4;
    kinds.into_iter().filter(|(_, holds)| open && *holds).map(|(kind, _)| kind).collect()
}

/// An operand across an edge: its instruction, how many words it has, how many before the edge.
type Crossing = (Form, u16, u16);

/// The crossings of the instruction pages: two and three words, and blocks of up to sixteen.
fn crossings() -> Vec<Crossing> {
    let mut wanted = Vec::new();
    for form in forms().into_iter().filter(|form| *form == form.plain()) {
        if form.block() {
            wanted.extend([(2, 1), (16, 1), (16, 8), (16, 15)].map(|(n, b)| (form, n, b)));
        } else {
            wanted.extend((1..form.words()).map(|before| (form, form.words(), before)));
        }
    }
    wanted
}

/// The crossing of a case, with an address before and one behind the edge.
fn crossing(case: &Case, first: u16, form: Form) -> Option<(Crossing, [u16; 2])> {
    let mut addresses: Vec<u16> =
        case.touches(first, form).iter().map(|touch| touch.address).collect();
    // PSHM goes down; MOV has two addresses that have nothing to do with each other.
    if form.opcode == 0x9F {
        addresses.reverse();
    }
    let (start, end) = (*addresses.first()?, *addresses.last()?);
    let before = addresses.iter().filter(|address| *address >> 12 == start >> 12).count();
    let found = (form.plain(), addresses.len() as u16, before as u16);
    (start >> 12 != end >> 12 && form.opcode != 0x93).then_some((found, [start, end]))
}

/// Every crossing in the cases with the page behind the edge, the key, and how far it comes.
fn crossed() -> BTreeSet<(Crossing, Behind, u16, Stage)> {
    let mut found = BTreeSet::new();
    for (case, first, form, stage) in instructions().filter(|(.., stage)| *stage >= Stage::Operand)
    {
        let Some((crossing, ends)) = form.and_then(|form| crossing(case, first, form)) else {
            continue;
        };
        let [near, far] = ends.map(|address| case.page(Access::Read, address));
        found.extend(behind(near, far).into_iter().map(|b| (crossing, b, case.key(), stage)));
    }
    found
}

#[test]
fn operands_cross_page_edges_under_three_keys() {
    let found = crossed();
    for crossing in crossings() {
        let (form, ..) = crossing;
        // LST and LSTI come to their operand with key 0 alone.
        for key in if form.privileged() { &KEYS[2..] } else { &KEYS } {
            let refused = |refused: bool| if refused { Stage::Operand } else { Stage::Done };
            let wanted = [
                (Behind::Lock5, refused(*key == 3)),
                (Behind::Protected, refused(form.manner()[1])),
                (Behind::Outside, Stage::Operand),
            ];
            all_found(wanted.map(|(behind, stage)| (crossing, behind, *key, stage)), &found);
        }
        all_found([(crossing, Behind::Apart, 0, Stage::Done)], &found);
    }
}

/// The forms of two words without an index.
fn two_words() -> impl Iterator<Item = Form> {
    let two = |form: &Form| length((form.opcode << 8) | form.operation) == 2;
    forms().into_iter().filter(move |form| two(form) && !form.indexed)
}

/// Every instruction in the cases whose second word stands behind an edge, with that page, the key,
/// and how far it comes.
fn crossed_by_fetches() -> BTreeSet<(Form, Behind, u16, Stage)> {
    let mut found = BTreeSet::new();
    for (case, _, form, stage) in instructions().filter(|(case, ..)| case.ic() & 0xFFF == 0xFFF) {
        let Some(form) = form else { continue };
        let [near, far] =
            [0, 1].map(|distance| case.page(Access::Fetch, case.ic().wrapping_add(distance)));
        for behind in behind(near, far) {
            // The next word of memory has to be another one than the second word.
            if behind != Behind::Apart || case.following() != case.fetched(1) {
                found.insert((form, behind, case.key(), stage));
            }
        }
    }
    found
}

#[test]
fn instructions_cross_page_edges_under_three_keys() {
    let found = crossed_by_fetches();
    for form in two_words() {
        for key in KEYS {
            let stage = |refused: bool| match refused {
                _ if form.privileged() && key != 0 => Stage::Privileged,
                true => Stage::SecondFetch,
                false => Stage::Done,
            };
            let wanted = [
                (Behind::Lock5, stage(key == 3)),
                (Behind::Protected, stage(true)),
                (Behind::Outside, stage(true)),
                (Behind::Apart, stage(false)),
            ];
            all_found(wanted.map(|(behind, stage)| (form, behind, key, stage)), &found);
        }
    }
}

#[test]
fn operands_and_instructions_wrap_from_ffff_to_0000() {
    let done = || instructions().filter(|(.., stage)| *stage == Stage::Done);
    let found: BTreeSet<Crossing> = done()
        .filter_map(|(case, first, form, _)| crossing(case, first, form?))
        .filter(|(_, [start, end])| start >> 12 == 0xF && end >> 12 == 0)
        .map(|(crossing, _)| crossing)
        .collect();
    all_found(crossings(), &found);
    let found: BTreeSet<Form> = done()
        .filter(|(case, ..)| case.ic() == 0xFFFF)
        .filter_map(|(_, _, form, _)| form)
        .collect();
    all_found(two_words(), &found);
}

#[test]
fn registers_wrap_from_r15_to_r0() {
    // First fields, second fields, and fields that are the same.
    let (mut first_fields, mut second_fields) = (BTreeSet::new(), BTreeSet::new());
    let mut same = BTreeSet::new();
    for (_, first, form, stage) in instructions() {
        let Some(form) = form.filter(|_| stage == Stage::Done) else { continue };
        if (first >> 4) & 0xF == 0xF {
            first_fields.insert(form);
        }
        if first & 0xF == 0xF {
            second_fields.insert(form);
        }
        if (first >> 4) & 0xF == first & 0xF {
            same.insert(form);
        }
    }
    let direct = |form: &Form| form.opcode >= 0x80 && !form.indirect() && !form.block();
    let pairs =
        forms().into_iter().filter(|form| direct(form) && !form.indexed && form.words() > 1);
    all_found(pairs, &first_fields);
    let registers: Vec<Form> = forms().into_iter().filter(two_registers).collect();
    for found in [&first_fields, &second_fields, &same] {
        all_found(registers.iter().copied(), found);
    }
}

/// Whether an instruction has two register fields, or one and a number, and touches no memory.
fn two_registers(form: &Form) -> bool {
    let one = length((form.opcode << 8) | form.operation) == 1;
    let relative = matches!(form.opcode, 0x74..=0x7B);
    one && !relative && !form.touches() && (0x50..0xFF).contains(&form.opcode)
}
