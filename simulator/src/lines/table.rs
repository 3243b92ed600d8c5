//! The mnemonics of section 5, one line for each box: its opcode or extension, and its operands in
//! order. VIO is left out, since its opcode is illegal here.

use super::operand::Operand::{self, *};

/// An instruction: its mnemonic, the bits of the first word that are fixed and what they are, its
/// operands.
pub(crate) struct Instruction {
    pub(crate) name: &'static str,
    pub(crate) mask: u16,
    pub(crate) code: u16,
    pub(crate) operands: &'static [Operand],
}

/// The operands as the boxes have them. A command, an address, a label of 16 bits and data are
/// `Word`, a condition is an `UpperN`.
const NONE: &[Operand] = &[];
const RA: &[Operand] = &[Ra];
const RA_RB: &[Operand] = &[Ra, Rb];
const RA_WORD: &[Operand] = &[Ra, Word];
const RA_WORD_RX: &[Operand] = &[Ra, Word, Rx];
const RA_COUNT: &[Operand] = &[Ra, LowerCount];
const RB_COUNT: &[Operand] = &[Rb, UpperCount];
const N_RB: &[Operand] = &[UpperN, Rb];
const N_WORD_RX: &[Operand] = &[UpperN, Word, Rx];
const COUNT_WORD_RX: &[Operand] = &[UpperCount, Word, Rx];
const WORD_RX: &[Operand] = &[Word, Rx];
const ENTRY: &[Operand] = &[LowerN];
const LABEL: &[Operand] = &[Label];
const BR_DSPL: &[Operand] = &[Br, Displacement];
const BR_RX: &[Operand] = &[Br, Rx];

/// An instruction with an opcode of eight bits.
const fn opcode(name: &'static str, opcode: u16, operands: &'static [Operand]) -> Instruction {
    Instruction { name, mask: 0xFF00, code: opcode << 8, operands }
}

/// A base relative one: an opcode of four bits and two, then the base register in two bits.
const fn base(name: &'static str, four: u16, two: u16) -> Instruction {
    Instruction { name, mask: 0xFC00, code: (four << 12) | (two << 10), operands: BR_DSPL }
}

/// A base relative indexed one: 40 to 43 by the base register, the extension in bits 8 to 11.
const fn base_indexed(name: &'static str, extension: u16) -> Instruction {
    Instruction { name, mask: 0xFCF0, code: 0x4000 | (extension << 4), operands: BR_RX }
}

/// An immediate one: 4A, the extension in bits 12 to 15.
const fn immediate(name: &'static str, extension: u16) -> Instruction {
    Instruction { name, mask: 0xFF0F, code: 0x4A00 | extension, operands: RA_WORD }
}

/// One whose whole word is fixed.
const fn whole(name: &'static str, code: u16) -> Instruction {
    Instruction { name, mask: 0xFFFF, code, operands: NONE }
}

/// How many mnemonics there are.
pub(crate) const MNEMONICS: usize = 195;

/// The instructions, in the order of section 5.
pub(crate) static TABLE: [Instruction; MNEMONICS] = [
    // 5.1 Execute input/output
    opcode("XIO", 0x48, RA_WORD_RX),
    // 5.3 Set bit
    opcode("SBR", 0x51, N_RB),
    opcode("SB", 0x50, N_WORD_RX),
    opcode("SBI", 0x52, N_WORD_RX),
    // 5.4 Reset bit
    opcode("RBR", 0x54, N_RB),
    opcode("RB", 0x53, N_WORD_RX),
    opcode("RBI", 0x55, N_WORD_RX),
    // 5.5 Test bit
    opcode("TBR", 0x57, N_RB),
    opcode("TB", 0x56, N_WORD_RX),
    opcode("TBI", 0x58, N_WORD_RX),
    // 5.6 Test and set bit
    opcode("TSB", 0x59, N_WORD_RX),
    // 5.7 to 5.9 Set, reset, test variable bit in register
    opcode("SVBR", 0x5A, RA_RB),
    opcode("RVBR", 0x5C, RA_RB),
    opcode("TVBR", 0x5E, RA_RB),
    // 5.10 to 5.13 Shifts
    opcode("SLL", 0x60, RB_COUNT),
    opcode("SRL", 0x61, RB_COUNT),
    opcode("SRA", 0x62, RB_COUNT),
    opcode("SLC", 0x63, RB_COUNT),
    // 5.14 to 5.17 Double shifts
    opcode("DSLL", 0x65, RB_COUNT),
    opcode("DSRL", 0x66, RB_COUNT),
    opcode("DSRA", 0x67, RB_COUNT),
    opcode("DSLC", 0x68, RB_COUNT),
    // 5.18 to 5.20 Shifts, count in register
    opcode("SLR", 0x6A, RA_RB),
    opcode("SAR", 0x6B, RA_RB),
    opcode("SCR", 0x6C, RA_RB),
    // 5.21 to 5.23 Double shifts, count in register
    opcode("DSLR", 0x6D, RA_RB),
    opcode("DSAR", 0x6E, RA_RB),
    opcode("DSCR", 0x6F, RA_RB),
    // 5.24 Jump on condition
    opcode("JC", 0x70, N_WORD_RX),
    opcode("JCI", 0x71, N_WORD_RX),
    // 5.25 Jump to subroutine
    opcode("JS", 0x72, RA_WORD_RX),
    // 5.26 Subtract one and jump
    opcode("SOJ", 0x73, RA_WORD_RX),
    // 5.27 to 5.29 Branches
    opcode("BR", 0x74, LABEL),
    opcode("BEZ", 0x75, LABEL),
    opcode("BLT", 0x76, LABEL),
    // 5.30 Branch to executive
    opcode("BEX", 0x77, ENTRY),
    // 5.31 to 5.34 Branches
    opcode("BLE", 0x78, LABEL),
    opcode("BGT", 0x79, LABEL),
    opcode("BNZ", 0x7A, LABEL),
    opcode("BGE", 0x7B, LABEL),
    // 5.35 Load status
    opcode("LST", 0x7D, WORD_RX),
    opcode("LSTI", 0x7C, WORD_RX),
    // 5.36 Stack IC and jump to subroutine
    opcode("SJS", 0x7E, RA_WORD_RX),
    // 5.37 Unstack IC and return from subroutine
    opcode("URS", 0x7F, RA),
    // 5.38 Single precision load
    opcode("LR", 0x81, RA_RB),
    base("LB", 0, 0),
    base_indexed("LBX", 0x0),
    opcode("LISP", 0x82, RA_COUNT),
    opcode("LISN", 0x83, RA_COUNT),
    opcode("L", 0x80, RA_WORD_RX),
    opcode("LIM", 0x85, RA_WORD_RX),
    opcode("LI", 0x84, RA_WORD_RX),
    // 5.39 Double precision load
    opcode("DLR", 0x87, RA_RB),
    base("DLB", 0, 1),
    base_indexed("DLBX", 0x1),
    opcode("DL", 0x86, RA_WORD_RX),
    opcode("DLI", 0x88, RA_WORD_RX),
    // 5.40 Load multiple registers
    opcode("LM", 0x89, N_WORD_RX),
    // 5.41 Extended precision floating point load
    opcode("EFL", 0x8A, RA_WORD_RX),
    // 5.42 Load from upper byte
    opcode("LUB", 0x8B, RA_WORD_RX),
    opcode("LUBI", 0x8D, RA_WORD_RX),
    // 5.43 Load from lower byte
    opcode("LLB", 0x8C, RA_WORD_RX),
    opcode("LLBI", 0x8E, RA_WORD_RX),
    // 5.44 Pop multiple registers off the stack
    opcode("POPM", 0x8F, RA_RB),
    // 5.45 Single precision store
    base("STB", 0, 2),
    base_indexed("STBX", 0x2),
    opcode("ST", 0x90, RA_WORD_RX),
    opcode("STI", 0x94, RA_WORD_RX),
    // 5.46 Store a non-negative constant
    opcode("STC", 0x91, N_WORD_RX),
    opcode("STCI", 0x92, N_WORD_RX),
    // 5.47 Move multiple words, memory to memory
    opcode("MOV", 0x93, RA_RB),
    // 5.48 Double precision store
    base("DSTB", 0, 3),
    base_indexed("DSTX", 0x3),
    opcode("DST", 0x96, RA_WORD_RX),
    opcode("DSTI", 0x98, RA_WORD_RX),
    // 5.49 Store register through mask
    opcode("SRM", 0x97, RA_WORD_RX),
    // 5.50 Store multiple registers
    opcode("STM", 0x99, N_WORD_RX),
    // 5.51 Extended precision floating point store
    opcode("EFST", 0x9A, RA_WORD_RX),
    // 5.52 Store into upper byte
    opcode("STUB", 0x9B, RA_WORD_RX),
    opcode("SUBI", 0x9D, RA_WORD_RX),
    // 5.53 Store into lower byte
    opcode("STLB", 0x9C, RA_WORD_RX),
    opcode("SLBI", 0x9E, RA_WORD_RX),
    // 5.54 Push multiple registers onto the stack
    opcode("PSHM", 0x9F, RA_RB),
    // 5.55 Single precision integer add
    opcode("AR", 0xA1, RA_RB),
    base("AB", 1, 0),
    base_indexed("ABX", 0x4),
    opcode("AISP", 0xA2, RA_COUNT),
    opcode("A", 0xA0, RA_WORD_RX),
    immediate("AIM", 0x1),
    // 5.56 Increment memory by a positive integer
    opcode("INCM", 0xA3, COUNT_WORD_RX),
    // 5.57, 5.58 Absolute value of register
    opcode("ABS", 0xA4, RA_RB),
    opcode("DABS", 0xA5, RA_RB),
    // 5.59 Double precision integer add
    opcode("DAR", 0xA7, RA_RB),
    opcode("DA", 0xA6, RA_WORD_RX),
    // 5.60 Floating point add
    opcode("FAR", 0xA9, RA_RB),
    base("FAB", 2, 0),
    base_indexed("FABX", 0x8),
    opcode("FA", 0xA8, RA_WORD_RX),
    // 5.61 Extended precision floating point add
    opcode("EFAR", 0xAB, RA_RB),
    opcode("EFA", 0xAA, RA_WORD_RX),
    // 5.62 Floating point absolute value of register
    opcode("FABS", 0xAC, RA_RB),
    // 5.63 Single precision integer subtract
    opcode("SR", 0xB1, RA_RB),
    base("SBB", 1, 1),
    base_indexed("SBBX", 0x5),
    opcode("SISP", 0xB2, RA_COUNT),
    opcode("S", 0xB0, RA_WORD_RX),
    immediate("SIM", 0x2),
    // 5.64 Decrement memory by a positive integer
    opcode("DECM", 0xB3, COUNT_WORD_RX),
    // 5.65, 5.66 Negate register
    opcode("NEG", 0xB4, RA_RB),
    opcode("DNEG", 0xB5, RA_RB),
    // 5.67 Double precision integer subtract
    opcode("DSR", 0xB7, RA_RB),
    opcode("DS", 0xB6, RA_WORD_RX),
    // 5.68 Floating point subtract
    opcode("FSR", 0xB9, RA_RB),
    base("FSB", 2, 1),
    base_indexed("FSBX", 0x9),
    opcode("FS", 0xB8, RA_WORD_RX),
    // 5.69 Extended precision floating point subtract
    opcode("EFSR", 0xBB, RA_RB),
    opcode("EFS", 0xBA, RA_WORD_RX),
    // 5.70 Floating point negate register
    opcode("FNEG", 0xBC, RA_RB),
    // 5.71 Single precision integer multiply with 16-bit product
    opcode("MSR", 0xC1, RA_RB),
    opcode("MISP", 0xC2, RA_COUNT),
    opcode("MISN", 0xC3, RA_COUNT),
    opcode("MS", 0xC0, RA_WORD_RX),
    immediate("MSIM", 0x4),
    // 5.72 Single precision integer multiply with 32-bit product
    opcode("MR", 0xC5, RA_RB),
    base("MB", 1, 2),
    base_indexed("MBX", 0x6),
    opcode("M", 0xC4, RA_WORD_RX),
    immediate("MIM", 0x3),
    // 5.73 Double precision integer multiply
    opcode("DMR", 0xC7, RA_RB),
    opcode("DM", 0xC6, RA_WORD_RX),
    // 5.74 Floating point multiply
    opcode("FMR", 0xC9, RA_RB),
    base("FMB", 2, 2),
    base_indexed("FMBX", 0xA),
    opcode("FM", 0xC8, RA_WORD_RX),
    // 5.75 Extended precision floating point multiply
    opcode("EFMR", 0xCB, RA_RB),
    opcode("EFM", 0xCA, RA_WORD_RX),
    // 5.76 Single precision integer divide with 16-bit dividend
    opcode("DVR", 0xD1, RA_RB),
    opcode("DISP", 0xD2, RA_COUNT),
    opcode("DISN", 0xD3, RA_COUNT),
    opcode("DV", 0xD0, RA_WORD_RX),
    immediate("DVIM", 0x6),
    // 5.77 Single precision integer divide with 32-bit dividend
    opcode("DR", 0xD5, RA_RB),
    base("DB", 1, 3),
    base_indexed("DBX", 0x7),
    opcode("D", 0xD4, RA_WORD_RX),
    immediate("DIM", 0x5),
    // 5.78 Double precision integer divide
    opcode("DDR", 0xD7, RA_RB),
    opcode("DD", 0xD6, RA_WORD_RX),
    // 5.79 Floating point divide
    opcode("FDR", 0xD9, RA_RB),
    base("FDB", 2, 3),
    base_indexed("FDBX", 0xB),
    opcode("FD", 0xD8, RA_WORD_RX),
    // 5.80 Extended precision floating point divide
    opcode("EFDR", 0xDB, RA_RB),
    opcode("EFD", 0xDA, RA_WORD_RX),
    // 5.81 Inclusive logical OR
    opcode("ORR", 0xE1, RA_RB),
    base("ORB", 3, 0),
    base_indexed("ORBX", 0xF),
    opcode("OR", 0xE0, RA_WORD_RX),
    immediate("ORIM", 0x8),
    // 5.82 Logical AND
    opcode("ANDR", 0xE3, RA_RB),
    base("ANDB", 3, 1),
    base_indexed("ANDX", 0xE),
    opcode("AND", 0xE2, RA_WORD_RX),
    immediate("ANDM", 0x7),
    // 5.83 Exclusive logical OR
    opcode("XORR", 0xE5, RA_RB),
    opcode("XOR", 0xE4, RA_WORD_RX),
    immediate("XORM", 0x9),
    // 5.84 Logical NAND
    opcode("NR", 0xE7, RA_RB),
    opcode("N", 0xE6, RA_WORD_RX),
    immediate("NIM", 0xB),
    // 5.85 to 5.88 Conversions
    opcode("FIX", 0xE8, RA_RB),
    opcode("FLT", 0xE9, RA_RB),
    opcode("EFIX", 0xEA, RA_RB),
    opcode("EFLT", 0xEB, RA_RB),
    // 5.89 Exchange bytes in register
    opcode("XBR", 0xEC, RA),
    // 5.90 Exchange words in registers
    opcode("XWR", 0xED, RA_RB),
    // 5.91 Single precision compare
    opcode("CR", 0xF1, RA_RB),
    base("CB", 3, 2),
    base_indexed("CBX", 0xC),
    opcode("CISP", 0xF2, RA_COUNT),
    opcode("CISN", 0xF3, RA_COUNT),
    opcode("C", 0xF0, RA_WORD_RX),
    immediate("CIM", 0xA),
    // 5.92 Compare between limits
    opcode("CBL", 0xF4, RA_WORD_RX),
    // 5.93 Double precision compare
    opcode("DCR", 0xF7, RA_RB),
    opcode("DC", 0xF6, RA_WORD_RX),
    // 5.94 Floating point compare
    opcode("FCR", 0xF9, RA_RB),
    base("FCB", 3, 3),
    base_indexed("FCBX", 0xD),
    opcode("FC", 0xF8, RA_WORD_RX),
    // 5.95 Extended precision floating point compare
    opcode("EFCR", 0xFB, RA_RB),
    opcode("EFC", 0xFA, RA_WORD_RX),
    // 5.96 No operation
    whole("NOP", 0xFF00),
    // 5.97 Break point
    whole("BPT", 0xFFFF),
];
