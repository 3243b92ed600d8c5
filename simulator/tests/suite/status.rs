//! The memory fault status register: what a refusal leaves in it, what clears it, what reads it.

use crate::bench::{Bench, Numbers};
use crate::random::some_machine;
use simulator::load;

/// A machine of pages 0 to 3 after reset, words from 0000 on and SW.
fn machine(sw: u16, words: &[u16]) -> Bench {
    Bench::sized(16_384).memory(0, words).sw(sw)
}

/// The same with a page register.
fn with_page(mut bench: Bench, number: usize, register: u16) -> Bench {
    bench.pages[number] = register;
    bench
}

/// The same with a status.
fn given(mut bench: Bench, mfs: u16) -> Bench {
    bench.state.mfs = mfs;
    bench
}

/// L R1,C123 in address state 5, refused, and the words after it.
fn after_a_load(then: &[u16]) -> Bench {
    machine(0x0005, &[0x8010, 0xC123]).memory(2, then).go().ft(0x0080).mfs(0xC005)
}

#[test]
fn worked_refusals_of_one_instruction() {
    let fetch = with_page(machine(0x0005, &[]), 83, 0x0803).at(0x3ABC);
    let second = with_page(machine(0, &[]), 1, 0x0004).memory(0x0FFF, &[0x8010]).at(0x0FFF);
    let protected = with_page(machine(0, &[0x9610, 0x0FFF]), 257, 0x0801);
    let block = with_page(machine(0, &[0x9910, 0x4FFF]), 261, 0x0805);
    let rows = [
        (fetch, 0x8000, 0x3015, 0x3ABD),
        (machine(0x0005, &[0x8010, 0xC123]), 0x0080, 0xC005, 2),
        (second, 0x0080, 0x1010, 0x1001),
        (protected, 0x8000, 0x1000, 2),
        (machine(0, &[0x9610, 0x3FFF]), 0x0080, 0x4000, 2),
        (block, 0x0080, 0x4000, 2),
        (machine(0, &[0x7100, 0x4000]), 0x0080, 0x4000, 2),
    ];
    for (bench, ft, mfs, ic) in rows {
        let memory = bench.memory.clone();
        let after = bench.with(1, &[0x1111, 0x2222]).go().ft(ft).mfs(mfs).ic(ic).pi(0x4000);
        assert!(after.memory == memory, "memory has changed");
    }
}

#[test]
fn worked_steps_after_a_refused_load() {
    after_a_load(&[0xFE00]).go().mfs(0xC005).ft(0x00C0);
    after_a_load(&[0x4820, 0xA00F]).go().mfs(0xC005).ft(0).has(2, &[0x0080]);
    after_a_load(&[0x4820, 0x2004]).with(2, &[1]).go().mfs(0xC005).ft(0).pi(0);
    after_a_load(&[0x4800, 0x2001]).go().mfs(0).ft(0).pi(0);
    after_a_load(&[0x4850, 0xA00D]).sw(0x9005).go().has(5, &[0xC005]).mfs(0xC005).cs(0b1001);
    let twice = with_page(after_a_load(&[0x7070, 0x3ABC]), 83, 0x0803);
    twice.steps(2).mfs(0x3015).ft(0x8080);
}

/// Interrupt 4 with its pointers; the new SW has address state 3.
fn entry(linkage: u16, service: u16) -> Bench {
    let mut bench = machine(0, &[]).memory(0x0028, &[linkage, service]);
    (bench.state.pi, bench.state.mk, bench.state.enabled) = (0x0800, 0x0800, true);
    bench.memory(0x0200, &[0x0000, 0x0003, 0x0300])
}

#[test]
fn worked_entries() {
    let protected = with_page(entry(0x0FFF, 0x0200), 256 + 48 + 1, 0x0801);
    let rows = [
        (entry(0x5000, 0x0200), 0x0080, 0x5003, 0x0300),
        (entry(0x0100, 0x6000), 0x0080, 0x6000, 0x0000),
        (entry(0x5000, 0x6000), 0x0080, 0x5000, 0x0000),
        (entry(0x0100, 0x3FFF), 0x0080, 0x4000, 0x0000),
        (entry(0x0100, 0xFFFF), 0x0080, 0xF000, 0x0000),
        (protected, 0x8000, 0x1003, 0x0300),
    ];
    for (bench, ft, mfs, ic) in rows {
        // The stores are done where the linkage pointer leads to 0100.
        let stored = if bench.memory[0x0028] == 0x0100 { 0x0800 } else { 0 };
        bench.go().ft(ft).mfs(mfs).ic(ic).pi(0x4000).holds(0x0100, &[stored, 0, 0]);
    }
}

#[test]
fn every_page_register_has_its_own_status() {
    for number in 0..512 {
        let (group, page) = ((number as u16 / 16) % 16, number as u16 % 16);
        let set = if number < 256 { 0x0010 } else { 0 };
        let bench = with_page(machine(group, &[0x8010, page << 12]), number, 0x0004);
        let bench = if number < 256 { bench.at(page << 12) } else { bench };
        bench.go().ft(0x0080).mfs((page << 12) | set | group);
    }
}

#[test]
fn the_most_recent_refusal_counts_though_its_bit_is_set() {
    let mut bench = given(machine(0x0005, &[0x8010, 0xC123]), 0x3015);
    (bench.state.ft, bench.state.pi) = (0xFFFF, 0x4000);
    bench.go().mfs(0xC005).ft(0xFFFF);
}

#[test]
fn other_faults_and_steps_leave_it() {
    let rows: [&[u16]; 8] = [
        &[0xFE00],
        &[0x4900, 0x0000],
        &[0x4840, 0x4000],
        &[0x4840, 0x2005],
        &[0x4840, 0x2000],
        &[0x7D00, 0x0200],
        &[0xFF00],
        &[0x7700],
    ];
    for words in rows {
        given(machine(0, words), 0xABCD).go().mfs(0xABCD);
    }
    let user = given(machine(0x0030, &[0x4850, 0xA00D]), 0xABCD).instruction_page(0, 0xF000);
    user.go().ft(0x0020).mfs(0xABCD).has(5, &[0]);
    given(entry(0x0100, 0x0200), 0xABCD).go().mfs(0xABCD).ft(0);
    given(machine(0x0005, &[0x8010, 0xC123]), 0xABCD).steps(0).mfs(0xABCD);
}

#[test]
fn read_into_every_register_without_cs() {
    for a in 0..16 {
        let bench = given(machine(0x9000, &[0x4800 | (a << 4), 0xA00D]), 0xFFFF).go();
        bench.has(usize::from(a), &[0xFFFF]).mfs(0xFFFF).fine(0b1001, 0);
    }
}

#[test]
fn reset_and_load_clear_it() {
    let mut bench = after_a_load(&[]);
    let Bench { memory, pages, ports, .. } = &mut bench;
    assert_eq!(load(&[], memory, pages, ports).map(|state| state.mfs), Ok(0));
    assert_eq!(Bench::sized(4096).state.mfs, 0);
}

#[test]
fn it_has_no_influence_on_anything_but_rmfs() {
    let mut numbers = Numbers::new(9);
    for _ in 0..50 {
        let bench = some_machine(&mut numbers);
        let after = bench.clone().steps(20);
        let mut other = given(bench, numbers.word()).steps(20);
        // A random program does not come upon RMFS or CLIR in so few steps.
        let refused = after.state.mfs != 0;
        assert!(!refused || other.state.mfs == after.state.mfs);
        other.state.mfs = after.state.mfs;
        assert!(after == other);
    }
}
