//! The memory fault status after refused accesses, entries and commands: cases worked out by hand.

mod common;

use common::{image, Machine};
use twin1750::{State, STATE_WORDS};

/// The reset machine of 16,384 words, so that pages 4 to F are outside, and its state apart.
struct Paged {
    machine: Machine,
    state: State,
}

impl Paged {
    /// With words of memory and page registers (256 more for the operand set) at their places, IC and SW.
    fn new(words: &[(usize, u16)], pages: &[(usize, u16)], ic: u16, sw: u16) -> Paged {
        let mut machine = Machine::sized(STATE_WORDS, 16_384, 512, 1024);
        assert_eq!(machine.load(&image(&[], &[])), Ok(()));
        for (address, word) in words {
            machine.memory[*address] = *word;
        }
        for (number, register) in pages {
            machine.pages[*number] = *register;
        }
        let state = State { ic, sw, ..State::reset() };
        Paged { machine, state }
    }

    /// L R1,C123 at 0 in address state 5, which is refused; then two words.
    fn outside(next: [u16; 2]) -> Paged {
        Paged::new(&[(0, 0x8010), (1, 0xC123), (2, next[0]), (3, next[1])], &[], 0, 0x0005)
    }

    /// Interrupt 4 pends; its linkage and service pointer, and at 0200 MK, SW with address state 3, IC.
    fn pending(link: u16, service: u16, pages: &[(usize, u16)]) -> Paged {
        let vector = [(0x28, link), (0x29, service), (0x201, 0x0003), (0x202, 0x0300)];
        let mut paged = Paged::new(&vector, pages, 0, 0);
        let State { pi, mk, enabled, .. } = &mut paged.state;
        (*pi, *mk, *enabled) = (0x0800, 0x0800, true);
        paged
    }

    /// Makes steps, and looks at FT and the status.
    #[track_caller]
    fn after(&mut self, steps: u32, ft: u16, mfs: u16) -> State {
        self.machine.words = self.state.pack().to_vec();
        assert_eq!(self.machine.run(steps), Ok(()));
        self.state = State::unpack(&self.machine.state());
        assert_eq!(self.machine.words[26], self.state.mfs);
        assert_eq!((self.state.ft, self.state.mfs), (ft, mfs));
        self.state
    }
}

/// A first word by E, an operand outside, a second word by its own register.
#[test]
fn fetches_and_operands() {
    Paged::new(&[], &[(83, 0x0803)], 0x3ABC, 0x0005).after(1, 0x8000, 0x3015);
    Paged::outside([0, 0]).after(1, 0x0080, 0xC005);
    let state = Paged::new(&[(0x0FFF, 0x8010)], &[(1, 0x0004)], 0x0FFF, 0).after(1, 0x0080, 0x1010);
    assert_eq!(state.ic, 0x1001);
}

/// DST whose second word lies behind another page register, by W and by the memory's end: nothing is stored.
#[test]
fn second_word_of_an_operand() {
    let mut paged = Paged::new(&[(0, 0x9610), (1, 0x0FFF)], &[(257, 0x0801)], 0, 0);
    (paged.state.regs[1], paged.state.regs[2]) = (7, 8);
    paged.after(1, 0x8000, 0x1000);
    assert_eq!(paged.machine.memory[0x0FFF..0x1001], [0, 0]);
    Paged::new(&[(0, 0x9610), (1, 0x3FFF)], &[], 0, 0).after(1, 0x0080, 0x4000);
}

/// The first refusal of STM, and the indirect word of a jump that is not made.
#[test]
fn first_refusal() {
    Paged::new(&[(0, 0x9910), (1, 0x4FFF)], &[(261, 0x0805)], 0, 0).after(1, 0x0080, 0x4000);
    Paged::new(&[(0, 0x7100), (1, 0x4000)], &[], 0, 0).after(1, 0x0080, 0x4000);
}

/// An illegal word, RCFR and RPI of 1 keep the status, CLIR clears it.
#[test]
fn kept_and_cleared() {
    Paged::outside([0xFE00, 0]).after(2, 0x00C0, 0xC005);
    Paged::outside([0x4850, 0xA00F]).after(2, 0x0000, 0xC005);
    let mut paged = Paged::outside([0x4850, 0x2004]);
    paged.state.regs[5] = 1;
    paged.after(2, 0x0000, 0xC005);
    Paged::outside([0x4850, 0x2001]).after(2, 0x0000, 0x0000);
}

/// RMFS reads it and leaves CS and the register, reserved bits too.
#[test]
fn rmfs() {
    let state = Paged::outside([0x4850, 0xA00D]).after(2, 0x0080, 0xC005);
    assert_eq!((state.regs[5], state.sw), (0xC005, 0x0005));
    let mut given = Paged::new(&[(0, 0x4850), (1, 0xA00D)], &[], 0, 0x1000);
    given.state.mfs = 0xFFFF;
    let state = given.after(1, 0x0000, 0xFFFF);
    assert_eq!((state.regs[5], state.sw), (0xFFFF, 0x1000));
}

/// An entry shows its last refusal: a store by the new address state, or a word that is read.
#[test]
fn entries() {
    let state = Paged::pending(0x5000, 0x0200, &[]).after(1, 0x0080, 0x5003);
    assert_eq!((state.pi, state.sw, state.ic), (0x4000, 0x0003, 0x0300));
    let mut paged = Paged::pending(0x0100, 0x6000, &[]);
    assert_eq!(paged.after(1, 0x0080, 0x6000).ic, 0);
    assert_eq!(paged.machine.memory[0x0100..0x0103], [0x0800, 0, 0]);
    Paged::pending(0x5000, 0x6000, &[]).after(1, 0x0080, 0x5000);
    Paged::pending(0x0100, 0x3FFF, &[]).after(1, 0x0080, 0x4000);
    Paged::pending(0x0100, 0xFFFF, &[]).after(1, 0x0080, 0xF000);
    let mut paged = Paged::pending(0x0FFF, 0x0200, &[(256 + 48 + 1, 0x0801)]);
    paged.after(1, 0x8000, 0x1003);
    assert_eq!(paged.machine.memory[0x0FFF], 0);
}

/// Of two faults in a row the second; an entry without a refusal keeps what was given.
#[test]
fn the_most_recent() {
    let words = [(0x3FFE, 0x8010), (0x3FFF, 0xC123)];
    Paged::new(&words, &[(84, 0x0804)], 0x3FFE, 0x0005).after(2, 0x8080, 0x4015);
    let mut paged = Paged::pending(0x0100, 0x0200, &[]);
    paged.state.mfs = 0x1234;
    paged.after(1, 0x0000, 0x1234);
}
