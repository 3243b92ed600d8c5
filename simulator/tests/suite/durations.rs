//! Durations of steps: cases worked by hand, the question before a run, the remainders, and random
//! machines beside the rule for a step and beside the old rule for the timers.

use crate::bench::{on, Bench, Numbers};
use crate::questions::{load_on, run_lent, used, GOOD};
use crate::random::some_machine;
use simulator::{program, step, State};

/// A reset machine of 4,096 words, all durations 0.
fn still() -> Bench {
    Bench::sized(4096).all(0)
}

#[test]
fn steps_of_100_tenths() {
    let bench = Bench::sized(4096).all(100);
    bench.clone().steps(10).a(10, 0).b(1, 0);
    bench.steps(15).a(15, 0).b(1, 500);
}

#[test]
fn steps_of_37_tenths() {
    let bench = still().lasting(0x00, 37);
    bench.clone().steps(3).a(1, 11).b(0, 111);
    bench.steps(28).a(10, 36).b(1, 36);
}

#[test]
fn refused_first_fetch_takes_the_last_duration() {
    let bench = still().lasting(256, 250).instruction_page(0, 0x0800);
    bench.go().ft(0x8000).pi(0x4000).ic(1).a(2, 50).b(0, 250);
}

#[test]
fn illegal_word_takes_its_opcodes_duration() {
    let bench = still().lasting(0xFE, 30).lasting(256, 999).memory(0, &[0xFE00]);
    bench.go().ft(0x0040).a(0, 30).b(0, 30);
}

#[test]
fn privileged_and_half_fetched_take_their_opcodes_duration() {
    let bench = still().lasting(0x48, 40).instruction_page(0, 0xF000).sw(0x0010);
    bench.memory(0, &[0x4800]).go().ft(0x0020).ic(1).a(0, 40).b(0, 40);
    let bench = still().lasting(0x80, 40).instruction_page(1, 0x0004).at(0x0FFF);
    bench.memory(0x0FFF, &[0x8010]).go().ft(0x0080).ic(0x1001).a(0, 40).b(0, 40);
}

#[test]
fn refused_words_and_commands_take_their_opcodes_duration() {
    let bench = on(&[0x8410, 0x2000]).all(0).lasting(0x84, 40).lasting(256, 999);
    bench.operand_page(2, 0x00FF).go().ft(0x0080).a(0, 40).b(0, 40);
    let bench = on(&[0x9010, 0x2000]).all(0).lasting(0x90, 41).lasting(256, 999);
    bench.operand_page(2, 0x0802).go().ft(0x8000).a(0, 41).b(0, 41);
    let bench = on(&[0x4810, 0x400B]).all(0).lasting(0x48, 42).lasting(256, 999);
    bench.go().ft(0x0400).a(0, 42).b(0, 42);
}

#[test]
fn calls_take_their_opcodes_duration_and_entries_the_last_one() {
    let mut bench = still().lasting(0x77, 300).lasting(256, 7).memory(0, &[0x7700]);
    bench.clone().go().a(3, 0).b(0, 300);
    bench.state.pi = 0x8000;
    bench.go().pi(0).a(0, 7).b(0, 7);
}

#[test]
fn own_step_of_a_timer_command() {
    let bench = still().lasting(0x48, 250).memory(0, &[0x4810, 0x400A]).with(1, &[0xFFFF]);
    bench.remainders(99, 0).go().pi(0x0100).a(1, 50).b(0, 250);
    let bench = still().lasting(0x48, 90).memory(0, &[0x4810, 0x4009, 0x4810, 0x4008]);
    let bench = bench.timers(5, 0).remainders(60, 7).go().a(5, 60).b(0, 97);
    assert!(!bench.state.timer_a_running && bench.state.timer_b_running);
    let bench = bench.go().a(6, 50).b(0, 187);
    assert!(bench.state.timer_a_running);
}

#[test]
fn timers_pass_their_end_by_far() {
    let bench = still().lasting(0x00, u16::MAX).timers(0xFFF0, 0xFFFF).remainders(99, 999);
    bench.go().pi(0x0140).a(0x0280, 34).b(0x0041, 534);
    let bench = still().lasting(0x00, u16::MAX).timers(0xFFF0, 0).remainders(99, 999);
    bench.go().pi(0x0100).a(0x0280, 34).b(66, 534);
}

#[test]
fn every_word_of_a_move_takes_its_duration() {
    let bench = on(&[0x9313]).all(0).lasting(0x93, 60).with(1, &[0x0400, 3, 0x0300]);
    bench.clone().go().a(0, 60).ic(0x0100).go().a(1, 20).go().a(1, 80).ic(0x0101);
    bench.with(2, &[0]).go().a(0, 60).ic(0x0101);
}

#[test]
fn loading_timer_b_starts_it_anew() {
    let mut bench = Bench::sized(4096).with(1, &[7]);
    bench.memory.fill(0xFF00);
    let bench = bench.memory(5, &[0x4810, 0x400E]).steps(6).b(7, 100);
    bench.steps(4).b(7, 500).steps(4).b(7, 900).go().b(8, 0);
}

#[test]
fn question_17_durations() {
    for length in [0, 1, 255, 256, 258, 512, 65_536] {
        assert_eq!(run_lent(GOOD, length, 0, 1), Err(17));
        assert_eq!(run_lent(GOOD, length, 0, 0), Err(17));
        assert_eq!(run_lent(GOOD, length, 0, 2_000_000), Err(17));
        assert_eq!(run_lent(GOOD, length, u32::MAX, 1), Err(17));
        assert_eq!(run_lent([4096, 512, 1023], length, 0, 1), Err(3));
        assert_eq!(run_lent([4096, 511, 1024], length, 0, 1), Err(2));
        assert_eq!(run_lent([4095, 512, 1024], length, 0, 1), Err(1));
    }
    assert_eq!(run_lent(GOOD, 257, 0, 1), Ok(()));
    assert_eq!(run_lent(GOOD, 257, 0, 0), Ok(()));
    assert_eq!(run_lent(GOOD, 257, u32::MAX, 2_000_000), Err(4));
    assert_eq!(run_lent(GOOD, 257, u32::MAX, 1), Err(5));
}

#[test]
fn two_runs_with_two_lists() {
    Bench::sized(4096).all(100).steps(3).all(50).steps(3).a(4, 50).b(0, 450);
}

#[test]
fn reset_and_loading_clear_both_remainders() {
    assert_eq!((State::default().remainder_a, State::default().remainder_b), (0, 0));
    for image in [&[][..], &[0, 0]] {
        let mut machine = used();
        assert_eq!(load_on(&mut machine, image), Ok(()));
        assert_eq!((machine.state.remainder_a, machine.state.remainder_b), (0, 0));
    }
    let mut machine = used();
    assert_eq!(load_on(&mut machine, &[0]), Err(6));
    assert_eq!((machine.state.remainder_a, machine.state.remainder_b), (0x0042, 0x0342));
}

#[test]
fn large_remainders_rise_at_once() {
    let bench = still().remainders(u16::MAX, u16::MAX);
    bench.clone().go().a(655, 35).b(65, 535).go().a(655, 35).b(65, 535);
    let bench = bench.lasting(0x00, u16::MAX).timers(0xFFFF, 0xFFFF);
    bench.go().pi(0x0140).a(1309, 70).b(130, 70);
    still().remainders(100, 1000).go().a(1, 0).b(1, 0);
    still().remainders(99, 999).go().a(0, 99).b(0, 999);
}

#[test]
fn halted_timers_keep_large_remainders() {
    let mut bench = still().all(u16::MAX).remainders(u16::MAX, 1000).timers(0xFFFF, 0xFFFF);
    (bench.state.timer_a_running, bench.state.timer_b_running) = (false, false);
    bench.steps(50).pi(0).a(0xFFFF, u16::MAX).b(0xFFFF, 1000);
}

/// The machine after XIO R3 with a command of 30 tenths: remainders 60 and 600 before it.
fn commanded(command: u16) -> Bench {
    let bench = on(&[0x4830, command]).with(3, &[0x0102]).all(0).lasting(0x48, 30);
    bench.timers(3, 4).remainders(60, 600).go()
}

#[test]
fn each_load_clears_its_own_remainder() {
    commanded(0x400A).a(0x0102, 30).b(4, 630);
    commanded(0x400E).a(3, 90).b(0x0102, 30);
}

#[test]
fn no_other_command_touches_the_remainders() {
    for command in [0x4008, 0x400C, 0xC00A, 0xC00E, 0x2001, 0x2004, 0x2005, 0x200E, 0xA00F] {
        commanded(command).ft(0).a(3, 90).b(4, 630);
    }
    commanded(0x4009).a(3, 60).b(4, 630);
    commanded(0x400D).a(3, 90).b(4, 600);
    let bench = on(&[0x4830, 0x400A]).all(0).lasting(0x48, 30).instruction_page(0, 0xF000);
    bench.sw(0x0010).remainders(60, 600).go().ft(0x0020).a(0, 90).b(0, 630);
    on(&[0x7D00, 0x0400]).all(0).remainders(60, 600).go().a(0, 60).b(0, 600);
}

#[test]
fn timers_may_pass_in_the_entry_that_they_asked_for() {
    for (number, bit) in [(7, 0x0100), (9, 0x0040)] {
        let mut bench = still().lasting(256, 1000).timers(0xFFFF, 0xFFFF);
        (bench.state.pi, bench.state.mk, bench.state.enabled) = (bit, 0xFFFF, true);
        let bench = bench.memory(32 + 2 * number, &[0x0200, 0x0300]).go();
        bench.pi(0x0140).a(9, 0).b(0, 0).holds(0x0200, &[0xFFFF]);
    }
}

#[test]
fn fetched_word_counts_where_it_is_overwritten() {
    let bench = on(&[0x9010, 0x0100]).with(1, &[0xFF00]).all(0).lasting(0x90, 40);
    bench.lasting(0xFF, 70).go().holds(0x0100, &[0xFF00]).a(0, 40);
}

/// A list of random durations: short ones, borders or any.
fn some_durations(numbers: &mut Numbers) -> Vec<u16> {
    let kind = numbers.next() % 3;
    let borders = [0, 1, 99, 100, 101, 999, 1000, 1001, u16::MAX];
    let duration = |_| match kind {
        0 => numbers.word() % 400,
        1 => borders[numbers.next() as usize % borders.len()],
        _ => numbers.word(),
    };
    (0..257).map(duration).collect()
}

/// A random machine with random durations and remainders, some of the timers halted, and timer
/// commands all over its memory.
fn timed_machine(numbers: &mut Numbers, commands: &[u16]) -> Bench {
    let mut bench = some_machine(numbers);
    bench.durations = some_durations(numbers);
    for place in (0..bench.memory.len() - 1).step_by(7) {
        let command = commands[numbers.next() as usize % commands.len()];
        bench.memory[place] = 0x4800 | (numbers.word() & 0x00F0);
        bench.memory[place + 1] = command;
    }
    bench.state.sw &= 0xFF0F;
    (bench.state.timer_a_running, bench.state.timer_b_running) =
        (!numbers.next().is_multiple_of(4), !numbers.next().is_multiple_of(4));
    let large = numbers.next().is_multiple_of(4);
    let [a, b] = [100, 1000].map(|unit| numbers.word() % if large { u16::MAX } else { unit });
    bench.remainders(a, b)
}

/// All commands of the timers, ENBL and SPI.
const COMMANDS: [u16; 10] =
    [0x4008, 0x4009, 0x400A, 0x400C, 0x400D, 0x400E, 0xC00A, 0xC00E, 0x2002, 0x2005];

#[test]
fn runs_are_single_steps_one_after_another() {
    let mut numbers = Numbers::new(17);
    for _ in 0..100 {
        let bench = timed_machine(&mut numbers, &COMMANDS);
        let mut singly = bench.clone();
        for _ in 0..500 {
            let Bench { state, memory, pages, ports, durations } = &mut singly;
            step(state, memory, pages, ports, durations);
        }
        assert!(bench.clone().steps(500) == singly);
        let cut = numbers.next() % 500;
        assert!(bench.steps(cut).steps(500 - cut) == singly);
    }
}

/// Whether the next step enters an interrupt.
fn enters(state: &State) -> bool {
    let masked = if state.enabled { state.mk } else { state.mk & 0x4000 };
    !state.hold && state.pi & (masked | 0x8400) != 0
}

/// The first word that the next step fetches, nothing where it fetches none.
fn first_word(bench: &Bench) -> Option<u16> {
    let (sw, ic) = (bench.state.sw, bench.state.ic);
    let register = bench.pages[usize::from((sw & 0xF) << 4 | ic >> 12)];
    let (lock, key) = (register >> 12, (sw >> 4) & 0xF);
    let open = lock == 0xF || key == 0 || key == lock;
    let word = bench.memory.get(4096 * usize::from(register & 0xFF) + usize::from(ic & 0x0FFF));
    word.copied().filter(|_| open && register & 0x0800 == 0 && !enters(&bench.state))
}

/// The machine after the next step but for the rise of the timers: a step that takes no time, from
/// remainders of 1, which are 0 after it where a command has cleared them.
fn untimed(bench: &Bench) -> Bench {
    bench.clone().all(0).remainders(1, 1).go()
}

/// A timer after a step, and whether it passed its end: the rule over whole numbers.
fn risen(timer: u16, remainder: u16, duration: u16, unit: u64) -> (u16, u16, bool) {
    let tenths = u64::from(remainder) + u64::from(duration);
    let sum = u64::from(timer) + tenths / unit;
    ((sum % 65_536) as u16, (tenths % unit) as u16, sum >= 65_536)
}

/// The state after the next step by the rule.
fn by_the_rule(before: &Bench) -> State {
    let number = first_word(before).map_or(256, |word| usize::from(word >> 8));
    let duration = before.durations[number];
    let mut state = untimed(before).state;
    state.remainder_a *= before.state.remainder_a;
    state.remainder_b *= before.state.remainder_b;
    if state.timer_a_running {
        let (timer, remainder, passed) = risen(state.timer_a, state.remainder_a, duration, 100);
        (state.timer_a, state.remainder_a) = (timer, remainder);
        state.pi |= if passed { 0x0100 } else { 0 };
    }
    if state.timer_b_running {
        let (timer, remainder, passed) = risen(state.timer_b, state.remainder_b, duration, 1000);
        (state.timer_b, state.remainder_b) = (timer, remainder);
        state.pi |= if passed { 0x0040 } else { 0 };
    }
    state
}

#[test]
fn random_steps_follow_the_rule() {
    let mut numbers = Numbers::new(18);
    let mut seen = [0; 257];
    for _ in 0..300 {
        let mut bench = timed_machine(&mut numbers, &COMMANDS);
        for _ in 0..150 {
            let expected = by_the_rule(&bench);
            seen[first_word(&bench).map_or(256, |word| usize::from(word >> 8))] += 1;
            bench = bench.go();
            assert_eq!(bench.state, expected);
        }
    }
    assert!(seen.iter().all(|count| *count > 0), "every duration was taken: {seen:?}");
}

/// The state after the next step by the old rule: timer A rises in every step, timer B where the
/// counter is then a multiple of 10.
fn by_the_old_rule(before: &Bench) -> State {
    let mut state = untimed(before).state;
    if state.timer_a_running {
        state.timer_a = state.timer_a.wrapping_add(1);
        state.pi |= if state.timer_a == 0 { 0x0100 } else { 0 };
    }
    if state.timer_b_running && state.counter.is_multiple_of(10) {
        state.timer_b = state.timer_b.wrapping_add(1);
        state.pi |= if state.timer_b == 0 { 0x0040 } else { 0 };
    }
    let remainder_b = (state.counter % 10) as u16 * 100;
    State { remainder_a: 0, remainder_b, ..state }
}

/// Whether the next step is an XIO that starts, halts or loads timer B, so that it is seen.
fn sets_timer_b(before: &Bench) -> bool {
    let timer = |state: &State| (state.timer_b, state.timer_b_running);
    let after = untimed(before).state;
    let changed = timer(&after) != timer(&before.state) || after.remainder_b != 1;
    changed && first_word(before).is_some_and(|word| word >> 8 == 0x48)
}

#[test]
fn steps_of_100_tenths_are_those_of_the_old_rule() {
    let mut numbers = Numbers::new(19);
    // Every command of timer A, and of timer B the one that reads it.
    let commands = [0x4008, 0x4009, 0x400A, 0xC00A, 0xC00E, 0x2002];
    let mut made = 0;
    for _ in 0..200 {
        let mut bench = timed_machine(&mut numbers, &commands).all(100);
        bench.state.timer_b_running = true;
        bench.state.counter = numbers.next() % 1_000_000;
        bench = bench.timers(numbers.edge(), numbers.word() | 0xFFF0);
        let remainder = (bench.state.counter % 10) as u16 * 100;
        bench = bench.remainders(0, remainder);
        for _ in 0..200 {
            if sets_timer_b(&bench) {
                break;
            }
            let expected = by_the_old_rule(&bench);
            bench = bench.go();
            assert_eq!(bench.state, expected);
            made += 1;
        }
    }
    assert!(made > 35_000, "{made} steps");
}

/// An image of some words at 0 and of R1.
fn image(words: &[u16], r1: u16) -> Vec<u8> {
    let count = words.len() as u8;
    let mut bytes = vec![0, 2, 0, 1, 0, 0, 0, 0, 0, 0, 0, count, 0, 3, 0, 0, 0, 1, 0, 0, 0, 1];
    bytes.extend(words.iter().chain([&r1]).flat_map(|word| word.to_be_bytes()));
    bytes
}

#[test]
fn programs_that_only_read_timer_b_print_what_they_did() {
    // ITA R2 in steps 1, 4 and so on to 1,000; ITB R3 in steps 2, 5 and so on to 998; a branch.
    let printed = program(&image(&[0x4820, 0xC00A, 0x4830, 0xC00E, 0x74FC], 0));
    assert_eq!(
        printed,
        "steps 1000\n\
         ic 0002 sw 0000 mk 0000 pi 0000 ft 0000\n\
         r0 0000 0000 03E7 0063 0000 0000 0000 0000\n\
         r8 0000 0000 0000 0000 0000 0000 0000 0000\n"
    );
}

#[test]
fn programs_that_load_timer_b_print_by_the_new_rule() {
    // Five NOPs, OTB of 7 in step 6, four NOPs, ITB R3 in step 11, a branch to itself: the old rule
    // had a rise in step 10, now there is none before step 15.
    let code = [0xFF00, 0xFF00, 0xFF00, 0xFF00, 0xFF00, 0x4810, 0x400E];
    let rest = [0xFF00, 0xFF00, 0xFF00, 0xFF00, 0x4830, 0xC00E, 0x7400];
    assert_eq!(
        program(&image(&[code, rest].concat(), 7)),
        "steps 1000\n\
         ic 000D sw 0000 mk 0000 pi 0000 ft 0000\n\
         r0 0000 0007 0000 0007 0000 0000 0000 0000\n\
         r8 0000 0000 0000 0000 0000 0000 0000 0000\n"
    );
}
