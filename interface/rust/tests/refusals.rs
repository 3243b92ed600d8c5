//! Every refusal of a load and a run is reached by its number, changes nothing, and comes in the order of the questions.

mod common;

use common::{image, Machine};
use twin1750::layout::{COUNTER_HIGH, COUNTER_LOW};
use twin1750::{load, run, Refusal, State, HUNDRED_EACH, STATE_WORDS};

type Call = fn(&mut Machine) -> Result<(), Refusal>;

/// The call is refused by the number, and the machine stays as it was.
fn refused(mut machine: Machine, call: impl Fn(&mut Machine) -> Result<(), Refusal>, number: u32) {
    let before = machine.clone();
    let refusal = call(&mut machine).expect_err("a refusal");
    assert_eq!(refusal.number(), number);
    assert_eq!(refusal.to_string(), format!("refused {number}"));
    assert!(machine == before, "refusal {number} changed something");
}

const NOTHING: Call = |m| m.load(&image(&[], &[]));
const STEP: Call = |m| m.run(1);

/// Both calls are refused by the number.
fn both_refused(machine: Machine, number: u32) {
    refused(machine.clone(), NOTHING, number);
    refused(machine, STEP, number);
}

#[test]
fn lengths() {
    for words in [0, 1, 32, 255, 257, 512] {
        both_refused(Machine::sized(words, 4096, 512, 1024), 100);
    }
    for memory in [0, 1, 4095, 4097, 1_048_575, 1_052_672] {
        both_refused(Machine::sized(STATE_WORDS, memory, 512, 1024), 1);
    }
    for pages in [0, 511, 513] {
        both_refused(Machine::sized(STATE_WORDS, 4096, pages, 1024), 2);
    }
    for ports in [0, 1023, 1025] {
        both_refused(Machine::sized(STATE_WORDS, 4096, 512, ports), 3);
    }
}

#[test]
fn lengths_that_are_taken() {
    for memory in [4096, 8192, 1_048_576] {
        let mut machine = Machine::sized(STATE_WORDS, memory, 512, 1024);
        assert_eq!(machine.load(&image(&[], &[])), Ok(()));
        assert_eq!(machine.run(1), Ok(()));
    }
}

/// A machine whose counter holds a number.
fn counted(counter: u32) -> Machine {
    let mut machine = Machine::new();
    machine.words[COUNTER_HIGH] = (counter >> 16) as u16;
    machine.words[COUNTER_LOW] = counter as u16;
    machine
}

#[test]
fn budget_and_counter() {
    refused(counted(0), |m| m.run(1_000_001), 4);
    refused(counted(0), |m| m.run(u32::MAX), 4);
    refused(counted(u32::MAX), |m| m.run(1), 5);
    refused(counted(u32::MAX - 999_999), |m| m.run(1_000_000), 5);
    assert_eq!(counted(u32::MAX).run(0), Ok(()));
    assert_eq!(counted(u32::MAX - 3).run(3), Ok(()));
}

/// 17 is asked of every run, before 4 and 5.
#[test]
fn durations() {
    for length in [0, 1, 256, 258, 512] {
        let list = vec![100; length];
        refused(counted(0), |m| m.run_for(1, &list), 17);
        refused(counted(0), |m| m.run_for(0, &list), 17);
        refused(counted(0), |m| m.run_for(2_000_000, &list), 17);
        refused(counted(u32::MAX), |m| m.run_for(1, &list), 17);
    }
    assert_eq!(counted(0).run_for(1, &[u16::MAX; 257]), Ok(()));
    refused(counted(0), |m| m.run_for(1_000_001, &[0; 257]), 4);
}

#[test]
fn images() {
    let calls: [(Call, u32); 15] = [
        (|m| m.load(&[0]), 6),
        (|m| m.load(&[0xFF]), 6),
        (|m| m.load(&[0, 65]), 7),
        (|m| m.load(&[0, 1]), 8),
        (|m| m.load(&[0, 64]), 8),
        (|m| m.load(&[0, 1, 0, 1, 0, 0, 0, 0, 0, 0, 0]), 8),
        (|m| m.load(&image(&[(0, 0, 1)], &[7])), 9),
        (|m| m.load(&image(&[(5, 0, 1)], &[7])), 9),
        (|m| m.load(&image(&[(1, 0, 0)], &[])), 10),
        (|m| m.load(&image(&[(1, 4095, 2)], &[7, 8])), 10),
        (|m| m.load(&image(&[(4, 5, 1)], &[7])), 10),
        (|m| m.load(&image(&[(3, u32::MAX, u32::MAX)], &[7])), 10),
        (|m| m.load(&image(&[(1, 0, 2), (1, 1, 1)], &[7, 8, 9])), 11),
        (|m| m.load(&image(&[(1, 0, 2)], &[7])), 12),
        (|m| m.load(&image(&[(1, 0, 2)], &[7, 8, 9])), 12),
    ];
    for (call, number) in calls {
        refused(Machine::new(), call, number);
    }
}

#[test]
fn order() {
    let wrong: [(Machine, u32); 4] = [
        (Machine::sized(255, 1, 1, 1), 100),
        (Machine::sized(STATE_WORDS, 1, 1, 1), 1),
        (Machine::sized(STATE_WORDS, 4096, 1, 1), 2),
        (Machine::sized(STATE_WORDS, 4096, 512, 1), 3),
    ];
    for (machine, number) in wrong {
        refused(machine.clone(), |m| m.load(&[]), number);
        refused(machine.clone(), |m| m.load(&[0]), number);
        refused(machine.clone(), |m| m.run(1_000_001), number);
        refused(machine.clone(), |m| m.run_for(1, &[100; 256]), number);
        refused(machine, |m| m.run_for(1_000_001, &[]), number);
    }
    refused(counted(u32::MAX), |m| m.run(1_000_001), 4);
}

/// The functions on a named state refuse alike.
#[test]
fn named_state() {
    let mut machine = Machine::new();
    let mut state = State { counter: u32::MAX, ..State::unpack(&machine.state()) };
    let before = (state, machine.clone());
    let Machine { memory, pages, ports, .. } = &mut machine;
    assert_eq!(load(&[0], &mut state, memory, pages, ports), Err(Refusal::NoCount));
    let mut refused = |durations: &[u16], memory: &mut [u16]| {
        run(1, durations, &mut state, memory, pages, ports).expect_err("a refusal")
    };
    assert_eq!(refused(&HUNDRED_EACH, memory), Refusal::Counter);
    assert_eq!(refused(&[100; 256], memory), Refusal::Durations);
    assert_eq!(refused(&[100; 256], &mut []), Refusal::Memory);
    assert!((state, machine) == before);
}

#[test]
fn numbers() {
    let numbers: Vec<u32> = Refusal::ALL.iter().map(|refusal| refusal.number()).collect();
    assert_eq!(numbers, [1, 2, 3, 4, 5, 6, 7, 8, 9, 10, 11, 12, 14, 15, 16, 17, 100]);
}
