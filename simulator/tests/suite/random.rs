//! Many random machines: faults change nothing else, runs may be cut up, nothing panics.

use crate::bench::{Bench, Numbers, LOOKUP};
use simulator::step;

/// A machine with random words everywhere and page registers that admit most accesses.
pub fn some_machine(numbers: &mut Numbers) -> Bench {
    let mut bench = Bench::sized(12_288);
    for word in bench.memory.iter_mut() {
        *word = numbers.word();
    }
    for register in bench.pages.iter_mut() {
        *register = some_page_register(numbers);
    }
    let state = &mut bench.state;
    for register in state.r.iter_mut() {
        *register = numbers.edge();
    }
    (state.ic, state.sw) = (numbers.word(), numbers.word() & 0xFF3F);
    (state.mk, state.enabled) = (numbers.word(), numbers.next().is_multiple_of(2));
    (state.timer_a, state.timer_b) = (numbers.edge(), numbers.edge());
    bench
}

/// Mostly frames 0 to 2 and admitting locks, at times a refusing one.
fn some_page_register(numbers: &mut Numbers) -> u16 {
    let lock = [0, 0xF, 0xF, 0xF, 1, 2, 3][numbers.next() as usize % 7];
    let protect = u16::from(numbers.next().is_multiple_of(8));
    let frame = (numbers.next() % 13 / 4) as u16;
    (lock << 12) | (protect << 11) | frame
}

/// The machine with every branch to the executive, which faults in its own way, made NOP.
fn without_calls(mut bench: Bench) -> Bench {
    bench.memory.iter_mut().filter(|word| **word >> 8 == 0x77).for_each(|word| *word = 0xFF00);
    bench
}

/// The machine after a fault: IC, FT, PI, hold, the tick and, where the lookup refused, the memory
/// fault status aside nothing changes.
fn only_a_fault(before: &Bench, after: &Bench) -> bool {
    let mut expected = before.state.clone();
    if after.state.ft & LOOKUP != 0 {
        expected.mfs = (after.state.mfs & 0xF010) | (expected.sw & 0xF);
    }
    (expected.ic, expected.ft, expected.pi) = (after.state.ic, after.state.ft, after.state.pi);
    (expected.counter, expected.hold) = (after.state.counter, false);
    (expected.timer_a, expected.timer_b) = (after.state.timer_a, after.state.timer_b);
    expected.remainder_b = after.state.remainder_b;
    let advance = after.state.ic.wrapping_sub(before.state.ic);
    (1..=2).contains(&advance)
        && expected == after.state
        && before.memory == after.memory
        && before.pages == after.pages
        && before.ports == after.ports
}

#[test]
fn faults_change_nothing_else() {
    let mut numbers = Numbers::new(6);
    let mut seen = [0; 5];
    let faults = [0x8000, 0x0400, 0x0080, 0x0040, 0x0020];
    let mut bench = Bench::sized(4096);
    for round in 0..60_000 {
        if round % 200 == 0 {
            bench = without_calls(some_machine(&mut numbers));
        }
        bench.state.ic = numbers.word();
        (bench.state.pi, bench.state.ft, bench.state.hold) = (0, 0, round % 3 == 0);
        bench.state.counter = numbers.next() % 1000;
        let before = bench.clone();
        bench = bench.go();
        let Some(place) = faults.iter().position(|fault| *fault == bench.state.ft) else {
            continue;
        };
        seen[place] += 1;
        assert!(only_a_fault(&before, &bench), "{:?}\n{:?}", before.state, bench.state);
    }
    assert!(seen.iter().all(|count| *count > 20), "each fault was seen: {seen:?}");
}

#[test]
fn runs_may_be_cut_up() {
    let mut numbers = Numbers::new(7);
    for _ in 0..50 {
        let bench = some_machine(&mut numbers);
        let whole = bench.clone().steps(1000);
        let mut parts = bench.clone();
        let mut left = 1000;
        while left > 0 {
            let part = (numbers.next() % 97).min(left);
            parts = parts.steps(part);
            left -= part;
        }
        assert!(whole == parts);
        let mut singly = bench;
        for _ in 0..1000 {
            let Bench { state, memory, pages, ports, durations } = &mut singly;
            step(state, memory, pages, ports, durations);
        }
        assert!(whole == singly);
    }
}

#[test]
fn counter_and_timers_rise_in_every_step() {
    let mut numbers = Numbers::new(8);
    for _ in 0..50 {
        let mut bench = without_calls(some_machine(&mut numbers));
        bench.state.sw |= 0x0010;
        bench.pages.iter_mut().for_each(|register| *register |= 0xF000);
        // Without privilege no command reaches the timers, as long as nothing is entered.
        (bench.state.mk, bench.state.enabled) = (0, false);
        let (a, b) = (bench.state.timer_a, bench.state.timer_b);
        let after = bench.clone().steps(30);
        if after.state.sw & 0x00F0 == 0x0010 {
            assert_eq!(after.state.counter, 30);
            assert_eq!(after.state.timer_a, a.wrapping_add(30));
            assert_eq!(after.state.timer_b, b.wrapping_add(3));
        }
    }
}
