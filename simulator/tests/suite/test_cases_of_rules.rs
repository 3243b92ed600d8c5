//! The cases that another simulator is run on, by rules and tables: conditions, counts of shifts,
//! overflow and underflow, the words of the standard's tables, locks and keys.

use crate::cases::{cases, Access, Case, Stage, FT, IC, PI};
use crate::forms::Form;
use crate::tables::{TABLE_1, TABLE_2, TABLE_3, TABLE_4};
use crate::test_cases::{all_found, instructions};
use std::collections::BTreeSet;

/// The cases of one instruction that is done: case, first word, form.
fn done() -> impl Iterator<Item = (&'static Case, u16, Form)> {
    instructions()
        .filter(|(.., stage)| *stage == Stage::Done)
        .filter_map(|(case, first, form, _)| Some((case, first, form?)))
}

#[test]
fn jumps_and_branches_under_every_status() {
    let statuses = [0x0, 0x4, 0x2, 0x1, 0x8, 0xA];
    let found: BTreeSet<(u16, u16, bool)> = done()
        .filter(|(_, first, form)| first & 0xFF0F == 0x7000 || (0x74..=0x7B).contains(&form.opcode))
        .filter(|(_, first, _)| first >> 8 != 0x77)
        .map(|(case, first, _)| {
            let (field, length) = if first >> 8 == 0x70 { (first & 0xF0, 2) } else { (0, 1) };
            let jumped = case.after[IC] != case.ic().wrapping_add(length);
            ((first & 0xFF00) | field, case.condition(), jumped)
        })
        .collect();
    for status in statuses {
        for condition in 0..16 {
            let jumps = condition & status != 0 || condition & 7 == 7;
            all_found([(0x7000 | (condition << 4), status, jumps)], &found);
        }
        // The bits of CS, P, Z and N, under which each branches; BR always.
        let branches = [(0x75, 2), (0x76, 1), (0x78, 3), (0x79, 4), (0x7A, 5), (0x7B, 6)];
        all_found(branches.map(|(opcode, bits)| (opcode << 8, status, status & bits != 0)), &found);
        all_found([(0x7400, status, true)], &found);
    }
}

/// The shifts by a register: opcode, count, whether overflow is set; of all values or of all ones.
fn shifts(of_ones: bool) -> BTreeSet<(u16, i16, bool)> {
    done()
        .filter(|(_, _, form)| (0x6A..=0x6F).contains(&form.opcode))
        .filter(|(case, first, _)| {
            let a = usize::from((first >> 4) & 0xF);
            !of_ones || [case.before[a], case.before[(a + 1) % 16]] == [0xFFFF; 2]
        })
        .map(|(case, first, form)| {
            let count = case.before[usize::from(first & 0xF)] as i16;
            (form.opcode, count, case.after[PI] & 0x0800 != 0)
        })
        .collect()
}

#[test]
fn shifts_by_counts_at_their_limits() {
    let (found, of_ones) = (shifts(false), shifts(true));
    for opcode in 0x6A..=0x6F {
        let limit = if opcode < 0x6D { 16 } else { 32 };
        let beyond = [limit + 1, -limit - 1, 127, -128];
        all_found(beyond.map(|count| (opcode, count, true)), &found);
        let within = [0, limit, -limit, 1 - limit, -1];
        all_found(within.map(|count| (opcode, count, false)), &found);
        // SAR and DSAR: the sign of all ones changes at the last position alone.
        let arithmetic = [0x6B, 0x6E].contains(&opcode);
        all_found([(opcode, limit, arithmetic), (opcode, limit - 1, false)], &of_ones);
    }
}

/// Opcodes on registers that can set fixed point overflow, floating point overflow and underflow.
const EVENTS: [(u16, &[u16]); 3] = [
    (
        0x0800,
        &[
            0xA1, 0xA2, 0xA4, 0xA5, 0xA7, 0xB1, 0xB2, 0xB4, 0xB5, 0xB7, 0xC1, 0xC2, 0xC3, 0xC7,
            0xD1, 0xD3, 0xD5, 0xD7, 0xE8, 0xEA,
        ],
    ),
    (0x1000, &[0xA9, 0xAB, 0xAC, 0xB9, 0xBB, 0xBC, 0xC9, 0xCB, 0xD9, 0xDB]),
    (0x0200, &[0xA9, 0xAB, 0xB9, 0xBB, 0xBC, 0xC9, 0xCB, 0xD9, 0xDB]),
];

#[test]
fn arithmetic_overflows_and_underflows() {
    let found: BTreeSet<(u16, u16)> = done()
        .map(|(case, _, form)| (form.opcode, case.after[PI] & !case.before[PI] & 0x1A00))
        .collect();
    for (bit, opcodes) in EVENTS {
        all_found(opcodes.iter().flat_map(|opcode| [(*opcode, bit), (*opcode, 0)]), &found);
    }
}

#[test]
fn words_of_the_tables_are_loaded() {
    let found: BTreeSet<Vec<u16>> = done()
        .filter(|(_, first, _)| [0x80, 0x86, 0x8A].contains(&(first >> 8)))
        .filter_map(|(case, first, form)| {
            let words: Vec<u16> =
                case.touches(first, form).iter().map(|touch| case.operand(touch.address)).collect();
            let loaded = (0..words.len()).map(|distance| (usize::from(first >> 4) + distance) % 16);
            words.iter().eq(loaded.map(|number| &case.after[number])).then_some(words)
        })
        .collect();
    all_found(TABLE_1.map(|(_, word)| vec![word]), &found);
    all_found(TABLE_2.map(|(_, double)| vec![(double >> 16) as u16, double as u16]), &found);
    all_found(TABLE_3.map(|(_, _, words)| words.to_vec()), &found);
    all_found(TABLE_4.map(|(_, _, words)| words.to_vec()), &found);
}

#[test]
fn locks_and_keys_admit_and_refuse() {
    let found: BTreeSet<(u16, u16)> = instructions()
        .filter(|(.., stage)| *stage >= Stage::Operand)
        .filter_map(|(case, first, form, _)| {
            let address = case.touches(first, form?).first()?.address;
            Some((case.page(Access::Read, address) >> 12, case.key()))
        })
        .collect();
    let some = [0, 1, 5, 8, 14, 15];
    all_found(some.into_iter().flat_map(|lock| some.map(|key| (lock, key))), &found);
}

#[test]
fn every_address_state_has_pages_of_its_own() {
    // An operand is read that no other address state could read.
    let found: BTreeSet<u16> = done()
        .filter_map(|(case, first, form)| {
            let address = case.touches(first, form).first()?.address;
            let refuses = |group| {
                let register = case.register(Access::Read, group, address);
                case.refusal(register, case.key(), Access::Read, address).is_some()
            };
            let group = case.group();
            (0..16).all(|other| refuses(other) == (other != group)).then_some(group)
        })
        .collect();
    all_found(0..16, &found);
}

#[test]
fn reserved_bits_of_a_page_register_are_tried() {
    let found: BTreeSet<bool> =
        done().map(|(case, ..)| case.page(Access::Fetch, case.ic()) & 0x0700 == 0x0700).collect();
    all_found([true], &found);
}

#[test]
fn targets_of_jumps_are_refused_in_the_next_step() {
    // Each jump to a protected page is done in one step and refused in the second.
    let found: BTreeSet<(u16, u32, bool)> = cases()
        .iter()
        .filter(|case| case.entry().is_none() && case.register(Access::Fetch, 0, 0x2300) == 0x0802)
        .map(|case| (case.fetched(0) >> 8, case.steps, case.after[FT] == 0x8000))
        .collect();
    for opcode in [0x70, 0x72, 0x73, 0x7D, 0x7E, 0x7F] {
        all_found([(opcode, 1, false), (opcode, 2, true)], &found);
    }
}

#[test]
fn programs_of_many_steps() {
    let long = cases().iter().filter(|case| (60..=500).contains(&case.steps)).count();
    assert!(long >= 6, "{long} programs");
}
