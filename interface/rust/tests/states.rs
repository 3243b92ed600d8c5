//! The example image, and each part of the state in its word: as the wrapper packs it, and as the library does.

mod common;

use common::{image, Machine};
use twin1750::layout::{COUNTER_HIGH, COUNTER_LOW, MARKS, REMAINDER_B};
use twin1750::{load, run, State, HUNDRED_EACH};

#[test]
fn example() {
    let path = concat!(env!("CARGO_MANIFEST_DIR"), "/../../examples/loop.image");
    let bytes = std::fs::read(path).expect("the example image");
    let (mut memory, mut pages, mut ports) = (vec![0; 16384], vec![0; 512], vec![0; 1024]);
    let mut state = State::reset();
    load(&bytes, &mut state, &mut memory, &mut pages, &mut ports).expect("loaded");
    assert_eq!(memory[..3], [0x823F, 0x7900, 0]);
    run(1000, &HUNDRED_EACH, &mut state, &mut memory, &mut pages, &mut ports).expect("run");
    let mut regs = [0; 16];
    regs[3] = 0x0010;
    let left = State {
        regs,
        ic: 1,
        sw: 0x4000,
        timer_a: 1000,
        timer_b: 100,
        a_runs: true,
        b_runs: true,
        counter: 1000,
        ..State::default()
    };
    assert_eq!(state, left);
}

/// A state in which every part differs from the others.
fn various() -> State {
    State {
        regs: std::array::from_fn(|n| 0x100 + n as u16),
        ic: 0x2001,
        sw: 0x2002,
        mk: 0x2003,
        pi: 0x2004,
        ft: 0x2005,
        timer_a: 0x2006,
        timer_b: 0x2007,
        remainder_a: 0x2008,
        remainder_b: 0x2009,
        mfs: 0x200A,
        counter: 0x200B_200C,
        ..State::default()
    }
}

#[test]
fn packed_words() {
    let mut words = [0; 256];
    words[..27].copy_from_slice(&[
        0x100, 0x101, 0x102, 0x103, 0x104, 0x105, 0x106, 0x107, 0x108, 0x109, 0x10A, 0x10B, 0x10C,
        0x10D, 0x10E, 0x10F, 0x2001, 0x2002, 0x2003, 0x2004, 0x2005, 0, 0x2006, 0x2007, 0x2008,
        0x2009, 0x200A,
    ]);
    words[32..34].copy_from_slice(&[0x200B, 0x200C]);
    assert_eq!(various().pack(), words);
    assert_eq!(State::unpack(&various().pack()), various());
}

#[test]
fn packed_marks() {
    let marks = [
        (State { enabled: true, ..various() }, 1),
        (State { hold: true, ..various() }, 2),
        (State { a_runs: true, ..various() }, 4),
        (State { b_runs: true, ..various() }, 8),
    ];
    for (state, word) in marks {
        assert_eq!(state.pack()[MARKS], word);
        assert_eq!(State::unpack(&state.pack()), state);
    }
}

/// A run of no steps unpacks and packs: only what is not looked at becomes 0, in the library as in the wrapper.
#[test]
fn run_of_no_steps() {
    for marks in 0..16 {
        let mut machine = Machine::new();
        machine.words[MARKS] = 0xBAB0 + marks;
        let before = machine.clone();
        assert_eq!(machine.run(0), Ok(()));
        let mut words = before.state();
        words[21] = marks;
        words[27..32].fill(0);
        words[34..].fill(0);
        assert_eq!(machine, Machine { words: words.to_vec(), ..before.clone() });
        assert_eq!(State::unpack(&before.state()).pack(), words);
    }
}

/// The bodies of kinds 3 and 4 stand in words 0 to 20; the rest is that of reset.
#[test]
fn loaded_words() {
    let bodies: Vec<u16> = (1..=21).map(|n| 0x0101 * n).collect();
    let mut machine = Machine::new();
    assert_eq!(machine.load(&image(&[(3, 0, 16), (4, 0, 5)], &bodies)), Ok(()));
    assert_eq!(machine.words[..21], bodies);
    assert_eq!(machine.words[21], 12);
    assert!(machine.words[22..].iter().all(|word| *word == 0));
}

/// An image without entries leaves the reset state; it differs from the default in the timers, which run.
#[test]
fn reset_state() {
    let mut machine = Machine::new();
    let mut state = various();
    let Machine { memory, pages, ports, .. } = &mut machine;
    load(&image(&[], &[]), &mut state, memory, pages, ports).expect("loaded");
    assert_eq!(state, State::reset());
    assert_eq!(State { a_runs: false, b_runs: false, ..state }, State::default());
    assert!(machine.memory.iter().chain(&machine.ports).all(|word| *word == 0));
    assert!(machine.pages.iter().enumerate().all(|(index, word)| usize::from(*word) == index % 16));
    assert_eq!(machine.load(&image(&[], &[])), Ok(()));
    assert_eq!(machine.state(), State::reset().pack());
}

/// An image of no bytes leaves on a used machine what one without entries leaves: the reset machine.
#[test]
fn no_bytes() {
    let (mut bare, mut counted) = (Machine::new(), Machine::new());
    assert_eq!(bare.load(&[]), Ok(()));
    assert_eq!(counted.load(&image(&[], &[])), Ok(()));
    assert!(bare == counted, "no bytes leave another machine");
    assert_eq!(bare.state(), State::reset().pack());
    assert_eq!((bare.pages[300], bare.memory[4095], bare.ports[1023]), (0x000C, 0, 0));
}

/// The reset machine that no bytes leave makes its steps: 0000 is LB of a word that is 0.
#[test]
fn steps_from_no_bytes() {
    let mut machine = Machine::new();
    let mut state = various();
    let Machine { memory, pages, ports, .. } = &mut machine;
    load(&[], &mut state, memory, pages, ports).expect("loaded");
    assert_eq!(state, State::reset());
    run(10, &HUNDRED_EACH, &mut state, memory, pages, ports).expect("run");
    let left = State { ic: 10, sw: 0x2000, timer_a: 10, timer_b: 1, counter: 10, ..State::reset() };
    assert_eq!(state, left);
}

/// Marks, timers, remainders and counter after each of the commands TAH, TBH, ENBL, DSBL, OTA and OTB from R0.
#[test]
fn marks_of_commands() {
    let commands = [0x4009, 0x400D, 0x2002, 0x2003, 0x400A, 0x400E];
    let program: Vec<u16> = commands.iter().flat_map(|command| [0x4800, *command]).collect();
    let bodies: Vec<u16> = program.iter().copied().chain([0xABCD]).collect();
    let mut machine = Machine::new();
    assert_eq!(machine.load(&image(&[(1, 0, 12), (3, 0, 1)], &bodies)), Ok(()));
    let after = [
        [8, 0, 0, 0, 100],
        [0, 0, 0, 0, 100],
        [3, 0, 0, 0, 100],
        [0, 0, 0, 0, 100],
        [4, 0xABCE, 0, 0, 100],
        [12, 0xABCF, 0xABCD, 0, 100],
    ];
    for (step, parts) in after.into_iter().enumerate() {
        assert_eq!(machine.run(1), Ok(()));
        assert_eq!(machine.words[MARKS..=REMAINDER_B], parts, "after step {}", step + 1);
        assert_eq!(machine.words[COUNTER_HIGH..=COUNTER_LOW], [0, step as u16 + 1]);
    }
}

/// The counter passes from its low to its high word.
#[test]
fn counter_words() {
    let mut machine = Machine::new();
    assert_eq!(machine.load(&image(&[(1, 0, 1)], &[0x7400])), Ok(()));
    machine.words[COUNTER_HIGH..=COUNTER_LOW].copy_from_slice(&[0x0012, 0xFFFF]);
    assert_eq!(machine.run(1), Ok(()));
    assert_eq!(machine.words[COUNTER_HIGH..=COUNTER_LOW], [0x0013, 0x0000]);
}
