//! The programs of the benchmark, each a machine to start from; their steps all take 100 tenths of a microsecond.

use crate::packed::{A_RUNS, B_RUNS, ENABLED, IC, MARKS, MK, STATE_WORDS, SW, TIMER_A};
use crate::subject::Lent;

/// Every program with its name.
pub fn programs() -> [(&'static str, Lent); 4] {
    [
        ("integer loop", integers()),
        ("memory and stack", memory_and_stack()),
        ("floats of both widths", floats()),
        ("paged task", paged_task()),
    ]
}

/// A machine of 65,536 words, its page registers as after reset, with words at some addresses.
fn machine(ic: u16, words: &[(usize, &[u16])]) -> Lent {
    let mut lent = Lent {
        state: vec![0; STATE_WORDS],
        memory: vec![0; 65_536],
        pages: (0..512).map(|index| index % 16).collect(),
        ports: vec![0; 1024],
    };
    for (start, words) in words {
        lent.memory[*start..start + words.len()].copy_from_slice(words);
    }
    lent.state[IC] = ic;
    lent.state[MARKS] = A_RUNS | B_RUNS;
    lent
}

/// L, A, ST and BR.
fn integers() -> Lent {
    let code = &[
        0x8010, 0x0100, // L R1,0100
        0xA010, 0x0101, // A R1,0101
        0x9010, 0x0100, // ST R1,0100
        0x74FA, // BR back to the load
    ];
    machine(0, &[(0, code), (0x0101, &[1])])
}

/// Double words, blocks of registers, the stack, a subroutine, bytes and a move of eight words.
fn memory_and_stack() -> Lent {
    let code = &[
        0x85F0, 0x0800, // LIM R15,0800
        0x8600, 0x0300, // loop: DL R0,0300
        0x9600, 0x0304, // DST R0,0304
        0x8970, 0x0300, // LM 7,0300
        0x9970, 0x0310, // STM 7,0310
        0x9F07, // PSHM R0,R7
        0x8F8E, // POPM R8,R14
        0xA2F0, // AISP R15,1
        0x7EF0, 0x0200, // SJS R15,0200
        0x8540, 0x0320, // LIM R4,0320
        0x8257, // LISP R5,8
        0x8560, 0x0330, // LIM R6,0330
        0x9346, // MOV R4,R6
        0xA300, 0x0340, // INCM 1,0340
        0x74EB, // BR loop
    ];
    let subroutine = &[
        0x8A00, 0x0350, // EFL R0,0350
        0x9A00, 0x0354, // EFST R0,0354
        0x8B30, 0x0358, // LUB R3,0358
        0x9C30, 0x0359, // STLB R3,0359
        0x7FF0, // URS R15
    ];
    let data = &[1, 2, 3, 4, 5, 6, 7, 8];
    machine(0x0100, &[(0x0100, code), (0x0200, subroutine), (0x0300, data), (0x0330, data)])
}

/// Add, subtract, multiply, divide, compare and convert, with 32 and with 48 bits.
fn floats() -> Lent {
    let code = &[
        0x8600, 0x0300, // loop: DL R0,0300
        0xA800, 0x0302, // FA R0,0302
        0xC800, 0x0304, // FM R0,0304
        0xD800, 0x0306, // FD R0,0306
        0xB800, 0x0302, // FS R0,0302
        0xF800, 0x0304, // FC R0,0304
        0x9600, 0x0320, // DST R0,0320
        0x8A40, 0x0310, // EFL R4,0310
        0xAA40, 0x0313, // EFA R4,0313
        0xCA40, 0x0316, // EFM R4,0316
        0xDA40, 0x0319, // EFD R4,0319
        0xBA40, 0x0313, // EFS R4,0313
        0xFA40, 0x0316, // EFC R4,0316
        0x9A40, 0x0324, // EFST R4,0324
        0xE890, // FIX R9,R0
        0xE9A9, // FLT R10,R9
        0xBCCA, // FNEG R12,R10
        0xA9C0, // FAR R12,R0
        0x74E0, // BR loop
    ];
    let single = &[0x5000, 0x0004, 0x6487, 0xED02, 0x56FC, 0x2A01, 0x9FFF, 0xFF04];
    let extended = &[
        0x5000, 0x0004, 0x1234, 0x6487, 0xED02, 0x5110, 0x56FC, 0x2A01, 0x62E5, 0x9FFF, 0xFF04,
        0x0001,
    ];
    machine(0x0100, &[(0x0100, code), (0x0300, single), (0x0310, extended)])
}

/// The task of the paged program, at 1000.
const TASK: &[u16] = &[
    0x8010, 0x2000, // loop: L R1,2000
    0xA010, 0x2001, // A R1,2001
    0x9010, 0x2000, // ST R1,2000
    0x8620, 0x2FFF, // DL R2,2FFF, from two pages
    0xA720, // DAR R2,R0
    0x9620, 0x2FFD, // DST R2,2FFD
    0x9010, 0x4000, // ST R1,4000, refused
    0x7703, // BEX 3
    0x8147, // LR R4,R7
    0x74F1, // BR loop
];
/// Interrupt 1: RCFR, ENBL, LST.
const FAULT: &[u16] = &[0x4800, 0xA00F, 0x4800, 0x2002, 0x7D00, 0x0104];
/// Interrupt 5, BEX 3: AISP R7,1, ENBL, LST.
const CALL: &[u16] = &[0xA270, 0x4800, 0x2002, 0x7D00, 0x0114];
/// Interrupt 7: LIM R8,FF00, OTA, ENBL, LST.
const TIMER: &[u16] = &[0x8580, 0xFF00, 0x4880, 0x400A, 0x4800, 0x2002, 0x7D00, 0x011C];

/// A task with key 2 in address state 1: its own pages, a refused store and a call in each turn,
/// and timer interrupts; the handlers run with key 0 in address state 0.
fn paged_task() -> Lent {
    let service = |entry| [0x4100, 0, entry, 0, 0, entry];
    let mut lent = machine(
        0x1000,
        &[
            (0x0022, &[0x0104, 0x0180]),
            (0x002A, &[0x0114, 0x0188]),
            (0x002E, &[0x011C, 0x0190]),
            (0x0180, &service(0x0400)),
            (0x0188, &service(0x0410)),
            (0x0190, &service(0x0420)),
            (0x0400, FAULT),
            (0x0410, CALL),
            (0x0420, TIMER),
            (0x5000, TASK),
            (0x6001, &[1]),
        ],
    );
    lent.pages[16 + 1] = 0x2005;
    lent.pages[256 + 16 + 2] = 0x2006;
    lent.pages[256 + 16 + 3] = 0xF007;
    lent.pages[256 + 16 + 4] = 0x2804;
    (lent.state[SW], lent.state[MK], lent.state[TIMER_A]) = (0x0021, 0x4100, 0xFF00);
    lent.state[MARKS] |= ENABLED;
    lent
}

#[cfg(test)]
mod tests {
    use super::programs;
    use crate::packed::{FT, PI};
    use crate::simulated::{Stepped, Watcher};
    use crate::subject::Subject;
    use crate::watch::{Next, Seen};
    use simulator::State;
    use twin1750::HUNDRED_EACH;

    /// Counts entries by number, and the opcodes of instructions.
    #[derive(Default)]
    struct Counts {
        entries: [u32; 16],
        opcodes: [u32; 16],
        calls: u32,
    }

    impl Watcher for Counts {
        fn stepped(&mut self, seen: &Seen, _: &mut State, _: &mut [u16]) {
            match seen.next {
                Next::Entry(number) => self.entries[number] += 1,
                Next::Instruction { first, .. } => {
                    self.opcodes[usize::from(first >> 12)] += 1;
                    self.calls += u32::from(first >> 8 == 0x77);
                }
                Next::Refused => panic!("a first fetch is refused"),
            }
        }
    }

    #[test]
    fn programs_do_what_they_are_for() {
        for (name, mut lent) in programs() {
            let mut subject = Stepped { watcher: Counts::default() };
            assert_eq!(subject.run(4_000, &HUNDRED_EACH, &mut lent), 0);
            let Counts { entries, opcodes, calls } = subject.watcher;
            let task = name == "paged task";
            assert_eq!(entries[1] > 100 && entries[7] > 10 && calls > 100, task, "{name}");
            assert_eq!(entries.iter().sum::<u32>(), entries[1] + entries[7], "{name}");
            // The turns go on: many branches, and no fault but the task's own.
            assert!(opcodes[7] > 100 && opcodes[8] > 400, "{name}: {opcodes:?}");
            assert!(task || lent.state[FT] | lent.state[PI] & 0xFF00 == 0, "{name}");
        }
    }
}
