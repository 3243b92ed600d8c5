//! The timers by the durations of steps: cases worked out by hand.

mod common;

use common::{image, Machine};
use twin1750::{Refusal, State, DURATIONS};

/// A machine, its state apart, and the durations that its runs are lent.
struct Timed {
    machine: Machine,
    state: State,
    durations: Vec<u16>,
}

impl Timed {
    /// The reset machine with words from word 0 of memory on; a duration that is not named is 0.
    fn new(words: &[u16], durations: &[(usize, u16)]) -> Timed {
        let mut machine = Machine::new();
        assert_eq!(machine.load(&image(&[], &[])), Ok(()));
        machine.memory[..words.len()].copy_from_slice(words);
        let state = State::unpack(&machine.state());
        let mut timed = Timed { machine, state, durations: vec![0; DURATIONS] };
        for (number, tenths) in durations {
            timed.durations[*number] = *tenths;
        }
        timed
    }

    /// One whose steps all take as long.
    fn all(words: &[u16], tenths: u16) -> Timed {
        Timed { durations: vec![tenths; DURATIONS], ..Timed::new(words, &[]) }
    }

    /// Makes steps, or is refused.
    fn run(&mut self, steps: u32) -> Result<(), Refusal> {
        self.machine.words = self.state.pack().to_vec();
        let result = self.machine.run_for(steps, &self.durations);
        self.state = State::unpack(&self.machine.state());
        result
    }

    /// Makes steps, and looks at timers and remainders: A, B.
    #[track_caller]
    fn after(&mut self, steps: u32, a: (u16, u16), b: (u16, u16)) -> State {
        assert_eq!(self.run(steps), Ok(()));
        let State { timer_a, remainder_a, timer_b, remainder_b, .. } = self.state;
        assert_eq!([(timer_a, remainder_a), (timer_b, remainder_b)], [a, b]);
        self.state
    }
}

#[test]
fn steps_of_100_tenths() {
    Timed::all(&[], 100).after(10, (0x000A, 0), (1, 0));
    Timed::all(&[], 100).after(15, (0x000F, 0), (1, 500));
    let mut machine = Timed::all(&[], 0).machine;
    assert_eq!(machine.run(15), Ok(()));
    assert_eq!(machine.words[22..26], [0x000F, 1, 0, 500]);
}

#[test]
fn steps_of_37_tenths() {
    let mut timed = Timed::new(&[], &[(0x00, 37)]);
    timed.after(3, (1, 11), (0, 111));
    timed.after(25, (0x000A, 36), (1, 36));
}

/// The first fetch is refused: the last duration.
#[test]
fn refused_fetch() {
    let mut timed = Timed::new(&[], &[(256, 250)]);
    timed.machine.pages[0] = 0x0800;
    let state = timed.after(1, (2, 50), (0, 250));
    assert_eq!((state.ft, state.pi, state.ic), (0x8000, 0x4000, 0x0001));
}

/// An illegal word: the duration of its opcode.
#[test]
fn illegal_word() {
    let state = Timed::new(&[0xFE00], &[(0xFE, 30), (256, 999)]).after(1, (0, 30), (0, 30));
    assert_eq!(state.ft, 0x0040);
}

/// A privileged instruction with another key, and a second word outside the memory: the duration of the opcode.
#[test]
fn refused_instructions() {
    let mut timed = Timed::new(&[0x4800], &[(0x48, 40)]);
    (timed.machine.pages[0], timed.state.sw) = (0xF000, 0x0010);
    let state = timed.after(1, (0, 40), (0, 40));
    assert_eq!((state.ft, state.ic), (0x0020, 0x0001));

    let mut timed = Timed::new(&[], &[(0x80, 40), (256, 999)]);
    timed.machine.memory[0x0FFF] = 0x8010;
    (timed.machine.pages[1], timed.state.ic) = (0x0004, 0x0FFF);
    let state = timed.after(1, (0, 40), (0, 40));
    assert_eq!((state.ft, state.ic), (0x0080, 0x1001));
}

/// BEX takes the duration of its opcode, the entry of an interrupt the last one.
#[test]
fn bex_and_entry() {
    let durations = [(0x77, 300), (256, 7)];
    Timed::new(&[0x7700], &durations).after(1, (3, 0), (0, 300));
    let mut timed = Timed::new(&[0x7700], &durations);
    timed.state.pi = 0x8000;
    assert_eq!(timed.after(1, (0, 7), (0, 7)).pi, 0);
}

/// OTA clears its remainder before its own duration is added.
#[test]
fn loaded_timer() {
    let mut timed = Timed::new(&[0x4810, 0x400A], &[(0x48, 250)]);
    (timed.state.regs[1], timed.state.remainder_a) = (0xFFFF, 99);
    assert_eq!(timed.after(1, (1, 50), (0, 250)).pi, 0x0100);
}

/// TAH adds nothing of its own step, TAS all of it.
#[test]
fn halted_timer() {
    let mut timed = Timed::new(&[0x4810, 0x4009, 0x4810, 0x4008], &[(0x48, 90)]);
    (timed.state.timer_a, timed.state.remainder_a) = (5, 60);
    assert!(!timed.after(1, (5, 60), (0, 90)).a_runs);
    assert!(timed.after(1, (6, 50), (0, 180)).a_runs);
}

/// 656 rises of timer A and 66 of timer B in one step, beyond their ends.
#[test]
fn many_rises() {
    let mut timed = Timed::new(&[], &[(0x00, u16::MAX)]);
    (timed.state.timer_a, timed.state.remainder_a) = (0xFFF0, 99);
    assert_eq!(timed.after(1, (0x0280, 34), (65, 535)).pi, 0x0100);

    let mut timed = Timed::new(&[], &[(0x00, u16::MAX)]);
    (timed.state.timer_a, timed.state.remainder_a) = (0xFFF0, 99);
    (timed.state.timer_b, timed.state.remainder_b) = (0xFFFF, 999);
    assert_eq!(timed.after(1, (0x0280, 34), (0x0041, 534)).pi, 0x0140);
}

/// Each word that MOV moves takes its duration.
#[test]
fn moved_words() {
    let mut timed = Timed::new(&[0x9348], &[(0x93, 60)]);
    (timed.state.regs[4], timed.state.regs[5], timed.state.regs[8]) = (0x0400, 3, 0x0300);
    timed.after(3, (1, 80), (0, 180));
}

/// OTB clears the remainder of timer B, which rises with its tenth step then.
#[test]
fn timer_b_by_its_own_start() {
    let mut words = [0xFF00; 16];
    words[5..7].copy_from_slice(&[0x4810, 0x400E]);
    let mut timed = Timed::all(&words, 100);
    timed.state.regs[1] = 7;
    timed.after(6, (6, 0), (7, 100));
    timed.after(8, (14, 0), (7, 900));
    timed.after(1, (15, 0), (8, 0));
}

/// 17 comes after 3, before 4, and with a budget of 0 as well.
#[test]
fn answers() {
    let mut timed = Timed::all(&[], 100);
    timed.durations.truncate(256);
    assert_eq!(timed.run(2_000_000), Err(Refusal::Durations));
    timed.durations.resize(258, 100);
    assert_eq!(timed.run(0), Err(Refusal::Durations));
    timed.durations.clear();
    assert_eq!(timed.run(1), Err(Refusal::Durations));
    timed.machine.ports.truncate(1023);
    assert_eq!(timed.run(1), Err(Refusal::Ports));
}

/// Two runs with different durations.
#[test]
fn two_lists() {
    let mut timed = Timed::all(&[], 100);
    timed.after(3, (3, 0), (0, 300));
    timed.durations.fill(50);
    timed.after(3, (4, 50), (0, 450));
}

/// A given remainder of a unit and more: the sum as it stands, and nothing while the timer is halted.
#[test]
fn large_remainders() {
    let mut timed = Timed::all(&[], u16::MAX);
    (timed.state.remainder_a, timed.state.remainder_b) = (u16::MAX, u16::MAX);
    timed.after(1, (1310, 70), (131, 70));

    let mut timed = Timed::all(&[], 1);
    (timed.state.remainder_a, timed.state.remainder_b) = (100, 1000);
    (timed.state.a_runs, timed.state.b_runs) = (false, false);
    timed.after(5, (0, 100), (0, 1000));
    (timed.state.a_runs, timed.state.b_runs) = (true, true);
    timed.after(1, (1, 1), (1, 1));
}
