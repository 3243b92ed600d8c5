//! Timers and the step counter (4.4.5, 5.1), every step of 100 tenths.

use crate::bench::{on, Bench};

/// A machine that runs NOP everywhere.
fn idle() -> Bench {
    let mut bench = Bench::sized(4096);
    bench.memory.fill(0xFF00);
    bench
}

#[test]
fn rates() {
    let state = idle().steps(25).state;
    assert_eq!((state.counter, state.timer_a, state.timer_b), (25, 25, 2));
}

#[test]
fn timer_b_follows_its_remainder() {
    idle().remainders(0, 700).steps(2).b(0, 900).go().b(1, 0);
    // The counter has nothing to do with it.
    let mut bench = idle();
    bench.state.counter = 7;
    bench.steps(9).b(0, 900).go().b(1, 0);
}

#[test]
fn passing_zero_sets_pending() {
    let bench = idle().timers(0xFFFE, 0xFFFF).remainders(0, 800);
    bench.go().pi(0).go().pi(0x0140).a(0, 0).b(0, 0);
}

#[test]
fn stopped_timers_stand() {
    let mut bench = idle().timers(0xFFFF, 0xFFFF).remainders(77, 777);
    bench.state.timer_a_running = false;
    bench.state.timer_b_running = false;
    let bench = bench.steps(100).pi(0).a(0xFFFF, 77).b(0xFFFF, 777);
    assert_eq!(bench.state.counter, 100);
}

#[test]
fn timers_rise_in_faulting_steps_and_entries() {
    let bench = on(&[0x4900]).remainders(0, 900).go().ft(0x0040).a(1, 0).b(1, 0);
    assert_eq!(bench.state.counter, 1);
    let mut bench = on(&[]).remainders(0, 900);
    bench.state.pi = 0x8000;
    let bench = bench.go().a(1, 0).b(1, 0);
    assert_eq!(bench.state.counter, 1);
}

#[test]
fn commands_of_timer_a() {
    let after = |command| {
        let mut bench = on(&[0x4830, command]).with(3, &[0x1234]);
        bench.state.timer_a = 0x0100;
        bench.go().ft(0)
    };
    let bench = after(0x4009);
    assert_eq!((bench.state.timer_a, bench.state.timer_a_running), (0x0100, false));
    let bench = after(0x4008);
    assert_eq!((bench.state.timer_a, bench.state.timer_a_running), (0x0101, true));
    let bench = after(0x400A);
    assert_eq!((bench.state.timer_a, bench.state.timer_a_running), (0x1235, true));
    let bench = after(0xC00A).has(3, &[0x0100]);
    assert_eq!(bench.state.timer_a, 0x0101);
}

#[test]
fn commands_of_timer_b() {
    let after = |command| {
        let bench = on(&[0x4830, command]).with(3, &[0x1234]);
        bench.timers(0, 0x0100).remainders(0, 900).go().ft(0)
    };
    let bench = after(0x400D);
    assert_eq!((bench.state.timer_b, bench.state.timer_b_running), (0x0100, false));
    let bench = after(0x400C);
    assert_eq!((bench.state.timer_b, bench.state.timer_b_running), (0x0101, true));
    let bench = after(0x400E).b(0x1234, 100);
    assert!(bench.state.timer_b_running);
    after(0xC00E).has(3, &[0x0100]).b(0x0101, 0);
}

#[test]
fn loading_a_stopped_timer_starts_it() {
    let mut bench = on(&[0x4830, 0x400A, 0x4830, 0x400E]).with(3, &[0xFFFF]);
    bench.state.timer_a_running = false;
    bench.state.timer_b_running = false;
    let bench = bench.go().pi(0x0100);
    assert_eq!((bench.state.timer_a, bench.state.timer_a_running), (0, true));
    let bench = bench.lasting(0x48, 1000).go().pi(0x0140).b(0, 0);
    assert!(bench.state.timer_b_running);
}

#[test]
fn timer_interrupt_is_taken_when_unmasked_and_enabled() {
    let mut bench = on(&[0xFF00]).memory(0x002E, &[0x0400, 0x0410]);
    bench = bench.memory(0x0410, &[0, 0, 0x0500]);
    bench.state.timer_a = 0xFFFF;
    bench.state.mk = 0x0100;
    bench.state.enabled = true;
    bench.go().pi(0x0100).ic(0x0101).go().pi(0).ic(0x0500).holds(0x0400, &[0x0100, 0, 0x0101]);
}
