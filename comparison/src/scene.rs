//! A random machine: memory full of instructions and data, page registers, vectors, state.

use crate::code::instruction;
use crate::durations::{remainder, timer};
use crate::lookup::place;
use crate::numbers::Numbers;
use crate::packed::{set_counter, unused, FT, IC, MARKS, MFS, MK, PI, STATE_WORDS, SW};
use crate::packed::{REMAINDER_A, REMAINDER_B, TIMER_A, TIMER_B};
use crate::shapes::{shape, Shape};
use crate::subject::Lent;
use crate::words::{address, edge, fault_status, float, mask, pending, status, LINKAGE};

/// Where the service blocks stand in page 0, eighteen words and two more for each interrupt.
const SERVICE: u16 = 0x0180;
/// Words of a service block: MK, SW, and the sixteen ICs of BEX.
const BLOCK: u16 = 18;

/// A machine with everything chosen at random.
pub fn scene(numbers: &mut Numbers) -> Lent {
    let sizes = [4096, 8192, 12_288, 12_288, 16_384, 16_384, 20_480, 65_536];
    let size = if numbers.once_in(200) { 1_048_576 } else { numbers.pick(&sizes) };
    let mut lent = Lent {
        state: vec![0; STATE_WORDS],
        memory: vec![0; size],
        pages: vec![0; 512],
        ports: vec![0; 1024],
    };
    let frames = (size / 4096) as u32;
    let used: Vec<u16> = (0..frames.min(4)).map(|_| numbers.below(frames) as u16).collect();
    for frame in &used {
        let start = 4096 * usize::from(*frame);
        fill(numbers, &mut lent.memory[start..start + 4096]);
    }
    let plain = !numbers.once_in(4);
    for (index, register) in lent.pages.iter_mut().enumerate() {
        *register = page_register(numbers, &used, frames as u16, plain && index < 256);
    }
    lent.ports.iter_mut().for_each(|port| *port = numbers.word());
    vectors(numbers, &mut lent);
    stir(numbers, &mut lent);
    lent
}

/// Fills a page with instructions and, in between, data.
fn fill(numbers: &mut Numbers, page: &mut [u16]) {
    let mut next = 0;
    let mut put = |page: &mut [u16], words: &[u16]| {
        for word in words {
            if let Some(place) = page.get_mut(next) {
                *place = *word;
            }
            next += 1;
        }
        next < page.len()
    };
    while match numbers.below(16) {
        0 => put(page, &float(numbers)),
        1 => put(page, &[edge(numbers), address(numbers)]),
        _ => {
            let words = instruction(numbers);
            let two = shape((words[0] >> 8) as u8).is_some_and(Shape::two_words);
            put(page, &words[..if two { 2 } else { 1 }])
        }
    } {}
}

/// A page register: mostly one that admits, sometimes locked, protected or outside the memory.
fn page_register(numbers: &mut Numbers, used: &[u16], frames: u16, plain: bool) -> u16 {
    let frame = match numbers.below(if plain { 16 } else { 24 }) {
        0..=15 => numbers.pick(used),
        16..=20 => numbers.small(frames),
        21 | 22 => frames.min(255),
        _ => numbers.small(256),
    };
    if plain {
        return 0xF000 | frame;
    }
    let any = numbers.small(16);
    let lock = numbers.pick(&[0xF, 0xF, 0xF, 0xF, 0xF, 0xF, 0, 1, 2, 3, any]);
    let protect = u16::from(numbers.once_in(10));
    let reserved = if numbers.once_in(8) { numbers.small(8) } else { 0 };
    (lock << 12) | (protect << 11) | (reserved << 8) | frame
}

/// Puts linkage and service pointers where entries look for them, most of them ones that work; some
/// service pointers have the new words on two pages.
fn vectors(numbers: &mut Numbers, lent: &mut Lent) {
    let page = place(lent.pages[256], 0);
    let Some(page) = lent.memory.get_mut(page..page + 4096) else { return };
    for number in 0..16 {
        let service = SERVICE + (BLOCK + 2) * number;
        let block = usize::from(service);
        page[block] = mask(numbers);
        page[block + 1] = status(numbers);
        for ic in &mut page[block + 2..block + usize::from(BLOCK)] {
            *ic = address(numbers);
        }
        let vector = usize::from(0x20 + 2 * number);
        let any = address(numbers);
        page[vector] = numbers.pick(&[LINKAGE + 4 * number, LINKAGE + 4 * number, any]);
        let (any, last) =
            (address(numbers), (numbers.small(16) << 12) | (0x0FFE + numbers.small(2)));
        let pointers = [service, service, service, service, service, service, any, last];
        page[vector + 1] = numbers.pick(&pointers);
    }
}

/// Gives every word of the state a new value; floats take three registers each.
pub fn stir(numbers: &mut Numbers, lent: &mut Lent) {
    let state = &mut lent.state;
    let mut number = 0;
    while number < 16 {
        let words: &[u16] = match numbers.below(8) {
            0..=3 => &[edge(numbers)],
            4 | 5 => &[address(numbers)],
            _ => &float(numbers),
        };
        for word in words {
            state[number % 16] = *word;
            number += 1;
        }
    }
    state[IC] = address(numbers) | if numbers.once_in(8) { 0x0FFF } else { 0 };
    state[SW] = status(numbers);
    state[MK] = mask(numbers);
    state[PI] = if numbers.once_in(3) { pending(numbers) } else { 0 };
    state[FT] = if numbers.once_in(6) { numbers.word() } else { 0 };
    state[MFS] = fault_status(numbers);
    state[MARKS] = numbers.word() & numbers.pick(&[0xFFFD, 0xFFFD, 0xFFFF]);
    (state[TIMER_A], state[REMAINDER_A]) = (timer(numbers), remainder(numbers, 100));
    (state[TIMER_B], state[REMAINDER_B]) = (timer(numbers), remainder(numbers, 1000));
    set_counter(state, counter(numbers));
    let first = numbers.word();
    for ((number, word), unused) in (0..).zip(state).zip(unused()) {
        if unused {
            *word = first.wrapping_add(number);
        }
    }
}

/// A counter: small, any, or near its end.
fn counter(numbers: &mut Numbers) -> u32 {
    match numbers.below(16) {
        0 => u32::MAX - numbers.below(400),
        1..=8 => numbers.below(100),
        _ => numbers.below(4_000_000_000),
    }
}
