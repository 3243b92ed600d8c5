//! The questions before a call: every number, the order of the questions, nothing changed.

use crate::bench::Bench;
use simulator::{load, run, State};

/// Runs with lists of these sizes and 257 durations.
fn run_with(sizes: [usize; 3], counter: u32, budget: u32) -> Result<(), u32> {
    run_lent(sizes, 257, counter, budget)
}

/// Runs with lists of these sizes and so many durations, and checks that a refusal changes nothing.
pub fn run_lent(sizes: [usize; 3], durations: usize, counter: u32, budget: u32) -> Result<(), u32> {
    let state = State { counter, ic: 3, remainder_a: 77, remainder_b: 777, ..State::default() };
    let durations = vec![100; durations];
    let lists = sizes.map(|size| vec![0xFF00u16; size]);
    let (mut after, mut changed) = (state.clone(), lists.clone());
    let [memory, pages, ports] = &mut changed;
    let answer = run(&mut after, memory, pages, ports, &durations, budget);
    if answer.is_err() {
        assert!(after == state && changed == lists, "a refusal changes something");
    }
    answer
}

/// Loads into lists of these sizes and checks that a refusal changes nothing.
fn load_into(sizes: [usize; 3], image: &[u8]) -> Result<State, u32> {
    let lists = sizes.map(|size| vec![0x5555u16; size]);
    let mut changed = lists.clone();
    let [memory, pages, ports] = &mut changed;
    let answer = load(image, memory, pages, ports);
    if answer.is_err() {
        assert!(changed == lists, "a refusal changes something");
    }
    answer
}

/// An image from its entries (kind, start, length) and its words.
fn image(entries: &[(u16, u32, u32)], words: &[u16]) -> Vec<u8> {
    let mut bytes = (entries.len() as u16).to_be_bytes().to_vec();
    for (kind, start, length) in entries {
        bytes.extend(kind.to_be_bytes());
        bytes.extend(start.to_be_bytes());
        bytes.extend(length.to_be_bytes());
    }
    bytes.extend(words.iter().flat_map(|word| word.to_be_bytes()));
    bytes
}

pub const GOOD: [usize; 3] = [4096, 512, 1024];

/// A machine of which every part differs from reset.
pub fn used() -> Bench {
    let state = State {
        r: std::array::from_fn(|number| 0xA0A0 + number as u16),
        ic: 0x0102,
        sw: 0x9031,
        mk: 0xFFFF,
        pi: 0x4321,
        ft: 0x8420,
        mfs: 0xC005,
        enabled: true,
        hold: true,
        timer_a: 0x1234,
        timer_b: 0x1234,
        remainder_a: 0x0042,
        remainder_b: 0x0342,
        timer_a_running: false,
        timer_b_running: false,
        counter: 77,
    };
    let (memory, pages, ports) = (vec![0xFFFF; 4096], vec![0xF8FF; 512], vec![0x5555; 1024]);
    Bench { state, memory, pages, ports, durations: vec![100; 257] }
}

/// Loads into a machine; a refusal leaves its state.
pub fn load_on(machine: &mut Bench, image: &[u8]) -> Result<(), u32> {
    let Bench { state, memory, pages, ports, .. } = machine;
    *state = load(image, memory, pages, ports)?;
    Ok(())
}

#[test]
fn question_1_memory() {
    for size in [0, 1, 4095, 4097, 6144, 1_048_576 + 4096, 1_048_577] {
        assert_eq!(run_with([size, 512, 1024], 0, 1), Err(1));
        assert_eq!(load_into([size, 512, 1024], &[0, 0]), Err(1));
    }
    for size in [4096, 8192, 12_288, 1_048_576] {
        assert_eq!(run_with([size, 512, 1024], 0, 1), Ok(()));
        assert!(load_into([size, 512, 1024], &[0, 0]).is_ok());
    }
    assert_eq!(run_with([0, 0, 0], 1, u32::MAX), Err(1));
    assert_eq!(load_into([0, 0, 0], &[]), Err(1));
}

#[test]
fn question_2_page_registers() {
    for size in [0, 511, 513, 1024] {
        assert_eq!(run_with([4096, size, 0], 0, u32::MAX), Err(2));
        assert_eq!(load_into([4096, size, 0], &[]), Err(2));
    }
}

#[test]
fn question_3_ports() {
    for size in [0, 1023, 1025] {
        assert_eq!(run_with([4096, 512, size], 1, u32::MAX), Err(3));
        assert_eq!(load_into([4096, 512, size], &[]), Err(3));
    }
}

#[test]
fn question_4_budget() {
    assert_eq!(run_with(GOOD, u32::MAX, 1_000_001), Err(4));
    assert_eq!(run_with(GOOD, 0, u32::MAX), Err(4));
    assert_eq!(run_with(GOOD, 0, 1_000_000), Ok(()));
}

#[test]
fn question_5_counter() {
    assert_eq!(run_with(GOOD, u32::MAX, 1), Err(5));
    assert_eq!(run_with(GOOD, u32::MAX - 9, 10), Err(5));
    assert_eq!(run_with(GOOD, u32::MAX - 10, 10), Ok(()));
    assert_eq!(run_with(GOOD, u32::MAX, 0), Ok(()));
}

#[test]
fn question_6_no_bytes_or_two() {
    for byte in 0..=0xFF {
        assert_eq!(load_into(GOOD, &[byte]), Err(6));
    }
    assert_eq!(load_into(GOOD, &[]), Ok(State::default()));
    assert_eq!(load_into(GOOD, &[0, 0]), Ok(State::default()));
}

#[test]
fn one_byte_leaves_everything_as_given() {
    for byte in [0, 0xFF] {
        let mut machine = used();
        assert_eq!(load_on(&mut machine, &[byte]), Err(6));
        assert!(machine == used(), "a refusal changes something");
    }
}

#[test]
fn no_bytes_and_one_are_asked_1_to_3() {
    for image in [&[][..], &[0]] {
        assert_eq!(load_into([4095, 512, 1024], image), Err(1));
        assert_eq!(load_into([4096, 511, 1024], image), Err(2));
        assert_eq!(load_into([4096, 512, 1023], image), Err(3));
        assert_eq!(load_into([4095, 511, 1023], image), Err(1));
        assert_eq!(load_into([4096, 511, 1023], image), Err(2));
    }
}

#[test]
fn two_bytes_are_asked_the_later_questions() {
    assert_eq!(load_into(GOOD, &[0, 1]), Err(8));
    assert_eq!(load_into(GOOD, &[0, 0x41]), Err(7));
}

#[test]
fn no_bytes_load_the_reset_machine() {
    let mut machine = used();
    assert_eq!(load_on(&mut machine, &[]), Ok(()));
    assert_eq!(machine.state, State::default());
    assert!(machine.state.timer_a_running && machine.state.timer_b_running);
    assert_eq!(machine.pages[300], 0x000C);
    assert!(machine.pages.iter().enumerate().all(|(index, word)| *word == index as u16 % 16));
    assert!(machine.memory.iter().chain(&machine.ports).all(|word| *word == 0));
}

#[test]
fn no_bytes_leave_what_no_entries_leave() {
    for size in [4096, 8192, 1_048_576] {
        let (mut bare, mut counted) = (used(), used());
        bare.memory.resize(size, 0x1750);
        counted.memory.resize(size, 0x1750);
        assert_eq!(load_on(&mut bare, &[]), Ok(()));
        assert_eq!(load_on(&mut counted, &[0, 0]), Ok(()));
        assert!(bare == counted && bare == Bench::sized(size), "not the reset machine");
    }
}

#[test]
fn steps_from_no_bytes() {
    let mut machine = used();
    assert_eq!(load_on(&mut machine, &[]), Ok(()));
    let after = machine.steps(10);
    let expected = State {
        ic: 0x000A,
        sw: 0x2000,
        timer_a: 0x000A,
        timer_b: 0x0001,
        counter: 10,
        ..State::default()
    };
    assert_eq!(after.state, expected);
    assert!(after.memory.iter().all(|word| *word == 0));
}

#[test]
fn question_7_entries() {
    assert_eq!(load_into(GOOD, &[0, 65]), Err(7));
    assert_eq!(load_into(GOOD, &[0xFF, 0xFF]), Err(7));
    let entries: Vec<(u16, u32, u32)> = (0..64).map(|start| (1, start, 1)).collect();
    assert!(load_into(GOOD, &image(&entries, &[0; 64])).is_ok());
}

#[test]
fn question_8_table() {
    let whole = image(&[(9, 0, 0), (9, 0, 0)], &[]);
    assert_eq!(load_into(GOOD, &whole[..21]), Err(8));
    assert_eq!(load_into(GOOD, &whole[..2]), Err(8));
    assert_eq!(load_into(GOOD, &whole), Err(9));
}

#[test]
fn question_9_kind() {
    for kind in [0, 5, 0x0100, 0xFFFF] {
        assert_eq!(load_into(GOOD, &image(&[(kind, 0, 0)], &[])), Err(9));
    }
}

#[test]
fn question_10_extent() {
    for (kind, size) in [(1, 4096), (2, 512), (3, 16), (4, 5)] {
        let one = |start, length| load_into(GOOD, &image(&[(kind, start, length)], &[0]));
        assert_eq!(one(0, 0), Err(10));
        assert_eq!(one(size, 0), Err(10));
        assert_eq!(one(size, 1), Err(10));
        assert_eq!(one(0, size + 1), Err(10));
        assert_eq!(one(u32::MAX, 1), Err(10));
        assert_eq!(one(1, u32::MAX), Err(10));
        assert!(one(size - 1, 1).is_ok());
    }
}

#[test]
fn question_11_shared_words() {
    let two = |second: (u16, u32, u32)| load_into(GOOD, &image(&[(1, 10, 5), second], &[0; 6]));
    assert_eq!(two((1, 14, 1)), Err(11));
    assert_eq!(two((1, 10, 1)), Err(11));
    assert_eq!(two((1, 0, 11)), Err(11));
    assert_eq!(two((1, 0, 4096)), Err(11));
    assert!(two((1, 15, 1)).is_ok());
    assert!(two((1, 9, 1)).is_ok());
    assert!(two((2, 10, 1)).is_ok());
}

#[test]
fn question_12_bodies() {
    let whole = image(&[(1, 0, 2), (3, 0, 1)], &[1, 2, 3]);
    assert!(load_into(GOOD, &whole).is_ok());
    assert_eq!(load_into(GOOD, &whole[..whole.len() - 1]), Err(12));
    let longer: Vec<u8> = whole.iter().copied().chain([0]).collect();
    assert_eq!(load_into(GOOD, &longer), Err(12));
    assert_eq!(load_into(GOOD, &[0, 0, 0]), Err(12));
}

#[test]
fn entries_are_asked_one_by_one() {
    assert_eq!(load_into(GOOD, &image(&[(1, 0, 0), (9, 0, 1)], &[])), Err(10));
    assert_eq!(load_into(GOOD, &image(&[(1, 0, 1), (1, 0, 1), (9, 0, 0)], &[])), Err(11));
    assert_eq!(load_into(GOOD, &image(&[(1, 0, 1), (9, 0, 0), (1, 0, 1)], &[])), Err(9));
}

#[test]
fn loading_resets_and_writes() {
    let entries = [(4, 1, 2), (1, 4094, 2), (2, 511, 1), (3, 15, 1), (1, 0, 1)];
    let words = [0x1234, 0x5678, 1, 2, 0xF803, 0xABCD, 9];
    let (mut memory, mut pages, mut ports) = (vec![7; 4096], vec![7; 512], vec![7; 1024]);
    let loaded = load(&image(&entries, &words), &mut memory, &mut pages, &mut ports);
    let mut expected = State { sw: 0x1234, mk: 0x5678, ..State::default() };
    expected.r[15] = 0xABCD;
    assert_eq!(loaded, Ok(expected));
    assert_eq!((memory[0], memory[1], memory[4094], memory[4095]), (9, 0, 1, 2));
    assert!(pages[..511].iter().enumerate().all(|(index, word)| *word == index as u16 % 16));
    assert_eq!(pages[511], 0xF803);
    assert!(ports.iter().all(|port| *port == 0));
}

#[test]
fn loading_all_control_words() {
    let words = [1, 2, 3, 4, 5];
    let state = load_into(GOOD, &image(&[(4, 0, 5)], &words)).expect("a good image");
    assert_eq!([state.ic, state.sw, state.mk, state.pi, state.ft], words);
}

#[test]
fn budget_zero_changes_nothing() {
    let before = used();
    assert!(before.clone().steps(0) == before);
    let before = Bench { durations: vec![u16::MAX; 257], ..used() }.remainders(999, 60_000);
    assert!(before.clone().steps(0) == before);
}

#[test]
fn run_makes_exactly_its_budget() {
    let mut bench = Bench::sized(4096);
    bench.memory.fill(0xFF00);
    let bench = bench.steps(123).ic(123).a(123, 0).b(12, 300);
    assert_eq!(bench.state.counter, 123);
}
