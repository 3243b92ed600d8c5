//! Every instruction in every addressing mode (4.3, section 5), assembled for an operand at a given
//! address.

use super::case::{Case, CODE};

/// Accumulator words, then operand words: as integers and as normalised floats of both widths.
pub(crate) type Values = ([u16; 3], [u16; 5]);

/// Positive numbers, and numbers of both signs.
pub(crate) const VALUES: [Values; 2] = [
    ([0x5000, 0x0304, 0x8001], [0x6000, 0x0102, 0x4321, 0x1357, 0x0246]),
    ([0x9000, 0x00FF, 0x1234], [0x7FFF, 0xFF05, 0x8001, 0x0000, 0xFFFF]),
];

/// The accumulator register and the second register of the assembled instructions.
const RA: u16 = 4;
const RB: u16 = 8;
/// The index register, its contents, and the displacement of the base modes.
const RX: u16 = 9;
pub(crate) const INDEX: u16 = 0x0031;
const DISPLACEMENT: u16 = 0x0012;
/// The registers of the instructions on blocks of them, each with another number.
const REGISTERS: [u16; 16] = [
    0x0A00, 0x0A01, 0x0A02, 0x0A03, 0x0A04, 0x0A05, 0x0A06, 0x0A07, 0x0A08, 0x0A09, 0x0A0A, 0x0A0B,
    0x0A0C, 0x0A0D, 0x0A0E, 0x0A0F,
];
/// Where the word of the indirect modes stands.
const POINTER: u16 = 0x1100;

/// Opcodes of the direct modes D and DX: name, and how many words of operand they have.
const DIRECT: &[(u16, &str, u16)] = &[
    (0x50, "SB", 1),
    (0x53, "RB", 1),
    (0x56, "TB", 1),
    (0x59, "TSB", 1),
    (0x70, "JC", 0),
    (0x72, "JS", 0),
    (0x73, "SOJ", 0),
    (0x7D, "LST", 3),
    (0x80, "L", 1),
    (0x86, "DL", 2),
    (0x89, "LM", 5),
    (0x8A, "EFL", 3),
    (0x8B, "LUB", 1),
    (0x8C, "LLB", 1),
    (0x90, "ST", 1),
    (0x91, "STC", 1),
    (0x96, "DST", 2),
    (0x97, "SRM", 1),
    (0x99, "STM", 5),
    (0x9A, "EFST", 3),
    (0x9B, "STUB", 1),
    (0x9C, "STLB", 1),
    (0xA0, "A", 1),
    (0xA3, "INCM", 1),
    (0xA6, "DA", 2),
    (0xA8, "FA", 2),
    (0xAA, "EFA", 3),
    (0xB0, "S", 1),
    (0xB3, "DECM", 1),
    (0xB6, "DS", 2),
    (0xB8, "FS", 2),
    (0xBA, "EFS", 3),
    (0xC0, "MS", 1),
    (0xC4, "M", 1),
    (0xC6, "DM", 2),
    (0xC8, "FM", 2),
    (0xCA, "EFM", 3),
    (0xD0, "DV", 1),
    (0xD4, "D", 1),
    (0xD6, "DD", 2),
    (0xD8, "FD", 2),
    (0xDA, "EFD", 3),
    (0xE0, "OR", 1),
    (0xE2, "AND", 1),
    (0xE4, "XOR", 1),
    (0xE6, "N", 1),
    (0xF0, "C", 1),
    (0xF4, "CBL", 2),
    (0xF6, "DC", 2),
    (0xF8, "FC", 2),
    (0xFA, "EFC", 3),
];

/// Opcodes of the indirect modes I and IX.
const INDIRECT: &[(u16, &str, u16)] = &[
    (0x52, "SBI", 1),
    (0x55, "RBI", 1),
    (0x58, "TBI", 1),
    (0x71, "JCI", 0),
    (0x7C, "LSTI", 3),
    (0x84, "LI", 1),
    (0x88, "DLI", 2),
    (0x8D, "LUBI", 1),
    (0x8E, "LLBI", 1),
    (0x92, "STCI", 1),
    (0x94, "STI", 1),
    (0x98, "DSTI", 2),
    (0x9D, "SUBI", 1),
    (0x9E, "SLBI", 1),
];

/// The base relative groups, four opcodes each from 00 on: name, operand words.
const BASE: &[(&str, u16)] = &[
    ("LB", 1),
    ("DLB", 2),
    ("STB", 1),
    ("DSTB", 2),
    ("AB", 1),
    ("SBB", 1),
    ("MB", 1),
    ("DB", 1),
    ("FAB", 2),
    ("FSB", 2),
    ("FMB", 2),
    ("FDB", 2),
    ("ORB", 1),
    ("ANDB", 1),
    ("CB", 1),
    ("FCB", 2),
];

/// The base relative indexed instructions, by the extension in bits 8 to 11.
const BASE_INDEXED: &[(&str, u16)] = &[
    ("LBX", 1),
    ("DLBX", 2),
    ("STBX", 1),
    ("DSTX", 2),
    ("ABX", 1),
    ("SBBX", 1),
    ("MBX", 1),
    ("DBX", 1),
    ("FABX", 2),
    ("FSBX", 2),
    ("FMBX", 2),
    ("FDBX", 2),
    ("CBX", 1),
    ("FCBX", 2),
    ("ANDX", 1),
    ("ORBX", 1),
];

/// Opcode 4A by its extension, from 1 on.
const IMMEDIATE: &[&str] =
    &["AIM", "SIM", "MIM", "MSIM", "DIM", "DVIM", "ANDM", "ORIM", "XORM", "CIM", "NIM"];

/// Opcodes of two registers, or of one and a small number, that touch no memory.
const REGISTER: &[(u16, &str)] = &[
    (0x51, "SBR"),
    (0x54, "RBR"),
    (0x57, "TBR"),
    (0x5A, "SVBR"),
    (0x5C, "RVBR"),
    (0x5E, "TVBR"),
    (0x60, "SLL"),
    (0x61, "SRL"),
    (0x62, "SRA"),
    (0x63, "SLC"),
    (0x65, "DSLL"),
    (0x66, "DSRL"),
    (0x67, "DSRA"),
    (0x68, "DSLC"),
    (0x6A, "SLR"),
    (0x6B, "SAR"),
    (0x6C, "SCR"),
    (0x6D, "DSLR"),
    (0x6E, "DSAR"),
    (0x6F, "DSCR"),
    (0x74, "BR"),
    (0x75, "BEZ"),
    (0x76, "BLT"),
    (0x78, "BLE"),
    (0x79, "BGT"),
    (0x7A, "BNZ"),
    (0x7B, "BGE"),
    (0x81, "LR"),
    (0x82, "LISP"),
    (0x83, "LISN"),
    (0x87, "DLR"),
    (0xA1, "AR"),
    (0xA2, "AISP"),
    (0xA4, "ABS"),
    (0xA5, "DABS"),
    (0xA7, "DAR"),
    (0xA9, "FAR"),
    (0xAB, "EFAR"),
    (0xAC, "FABS"),
    (0xB1, "SR"),
    (0xB2, "SISP"),
    (0xB4, "NEG"),
    (0xB5, "DNEG"),
    (0xB7, "DSR"),
    (0xB9, "FSR"),
    (0xBB, "EFSR"),
    (0xBC, "FNEG"),
    (0xC1, "MSR"),
    (0xC2, "MISP"),
    (0xC3, "MISN"),
    (0xC5, "MR"),
    (0xC7, "DMR"),
    (0xC9, "FMR"),
    (0xCB, "EFMR"),
    (0xD1, "DVR"),
    (0xD2, "DISP"),
    (0xD3, "DISN"),
    (0xD5, "DR"),
    (0xD7, "DDR"),
    (0xD9, "FDR"),
    (0xDB, "EFDR"),
    (0xE1, "ORR"),
    (0xE3, "ANDR"),
    (0xE5, "XORR"),
    (0xE7, "NR"),
    (0xE8, "FIX"),
    (0xE9, "FLT"),
    (0xEA, "EFIX"),
    (0xEB, "EFLT"),
    (0xEC, "XBR"),
    (0xED, "XWR"),
    (0xF1, "CR"),
    (0xF2, "CISP"),
    (0xF3, "CISN"),
    (0xF7, "DCR"),
    (0xF9, "FCR"),
    (0xFB, "EFCR"),
];

/// An assembled instruction.
#[derive(Clone)]
pub(crate) struct Row {
    /// Its name and mode.
    pub(crate) name: String,
    /// Its one or two words.
    pub(crate) code: Vec<u16>,
    /// Registers that its addresses need: number and contents.
    registers: Vec<(u16, u16)>,
    /// The operand's first address and how many words it has; 0 where memory is not touched.
    pub(crate) address: u16,
    pub(crate) words: u16,
    /// Where the word stands that names the operand, in the indirect modes.
    pub(crate) pointer: Option<u16>,
}

impl Row {
    fn new(name: impl Into<String>, code: Vec<u16>, address: u16, words: u16) -> Row {
        Row { name: name.into(), code, registers: Vec::new(), address, words, pointer: None }
    }

    fn with(mut self, number: u16, contents: u16) -> Row {
        self.registers.push((number, contents));
        self
    }

    /// Whether an earlier row has the same operation and forms its address without this index.
    pub(crate) fn indexed(&self) -> bool {
        [" DX", " IX", " RX 0"].iter().any(|mode| self.name.ends_with(mode))
    }

    /// The case of the instruction with these numbers at an address, but for the operand's words.
    pub(crate) fn bare(&self, at: u16, values: &Values) -> Case {
        let (accumulator, operand) = values;
        let mut case = Case::new(self.name.as_str()).code(at, &self.code);
        case = match self.code[0] >> 8 {
            0x00..=0x43 => case.registers(0, accumulator),
            // LM, POPM, STM and PSHM: blocks of registers
            0x89 | 0x8F | 0x99 | 0x9F => case.registers(0, &REGISTERS),
            _ => case.registers(RA, accumulator),
        };
        if self.words == 0 {
            case = case.registers(RB, &operand[..3]);
        }
        for (number, contents) in &self.registers {
            case = case.registers(*number, &[*contents]);
        }
        if let Some(pointer) = self.pointer {
            case = case.memory(pointer, &[self.address]);
        }
        case
    }

    /// The same at 0100, with the operand's words where pages are not mapped elsewhere.
    pub(crate) fn case(&self, values: &Values) -> Case {
        self.bare(CODE, values).memory(self.address, &self.operand(values))
    }

    /// The operand's words: the given ones, and for a longer block of registers some more.
    pub(crate) fn operand(&self, values: &Values) -> Vec<u16> {
        let more = (1..).map(|number| 0x1111 * number);
        values.1.into_iter().chain(more).take(usize::from(self.words)).collect()
    }

    /// Whether the address, or the indirect word's, is a sum with a register.
    fn summed(&self) -> bool {
        self.code[0] < 0x4000 || self.code[0] & 0xF != 0
    }
}

/// The direct modes: RX = 0 and RX = 9.
fn direct(address: u16) -> impl Iterator<Item = Row> {
    DIRECT.iter().flat_map(move |&(opcode, name, words)| {
        let first = (opcode << 8) | (RA << 4);
        let plain = Row::new(format!("{name} D"), vec![first, address], address, words);
        let second = address.wrapping_sub(INDEX);
        let indexed = Row::new(format!("{name} DX"), vec![first | RX, second], address, words);
        [plain, indexed.with(RX, INDEX)]
    })
}

/// The indirect modes through a word at an address: RX = 0 and RX = 9.
fn indirect(address: u16, pointer: u16) -> impl Iterator<Item = Row> {
    INDIRECT.iter().flat_map(move |&(opcode, name, words)| {
        let first = (opcode << 8) | (RA << 4);
        let plain = Row::new(format!("{name} I"), vec![first, pointer], address, words);
        let second = pointer.wrapping_sub(INDEX);
        let indexed = Row::new(format!("{name} IX"), vec![first | RX, second], address, words);
        [plain, indexed.with(RX, INDEX)].map(|row| Row { pointer: Some(pointer), ..row })
    })
}

/// The base relative modes with one base register, R12 to R15: B, BX without an index, BX.
fn based(address: u16, base: u16) -> impl Iterator<Item = Row> {
    let relative = BASE.iter().zip(0..).map(move |(&(name, words), group)| {
        let code = vec![(group << 10) | (base << 8) | DISPLACEMENT];
        let row = Row::new(format!("{name} B{}", base + 12), code, address, words);
        row.with(base + 12, address.wrapping_sub(DISPLACEMENT))
    });
    let indexed = BASE_INDEXED.iter().zip(0..).flat_map(move |(&(name, words), extension)| {
        let first = 0x4000 | (base << 8) | (extension << 4);
        let plain = Row::new(format!("{name} BX{} RX 0", base + 12), vec![first], address, words);
        let row = Row::new(format!("{name} BX{}", base + 12), vec![first | RX], address, words);
        let row = row.with(RX, INDEX).with(base + 12, address.wrapping_sub(INDEX));
        [plain.with(base + 12, address), row]
    });
    relative.chain(indexed)
}

/// The instructions with a stack or a block of memory.
fn stacked(address: u16) -> Vec<Row> {
    let above = |words: u16| address.wrapping_add(words);
    vec![
        Row::new("SJS D", vec![0x7E40, 0x0345], address, 1).with(RA, above(1)),
        Row::new("SJS DX", vec![0x7E49, 0x0345], address, 1).with(RA, above(1)).with(RX, INDEX),
        Row::new("URS", vec![0x7F40], address, 1).with(RA, address),
        Row::new("POPM R4,R6", vec![0x8F46], address, 3).with(15, address),
        Row::new("POPM R14,R1", vec![0x8FE1], address, 4).with(15, address),
        Row::new("PSHM R4,R6", vec![0x9F46], address, 3).with(15, above(3)),
        Row::new("PSHM R14,R1", vec![0x9FE1], address, 4).with(15, above(4)),
        Row::new("MOV from", vec![0x9348], address, 1)
            .with(RA, 0x0600)
            .with(5, 1)
            .with(RB, address),
        Row::new("MOV to", vec![0x9348], address, 1).with(RA, address).with(5, 2).with(RB, 0x0600),
    ]
}

/// Blocks of two and of sixteen registers; POPM skips the word of R15, here the last or the first.
pub(crate) fn blocks(address: u16) -> Vec<Row> {
    let above = |words: u16| address.wrapping_add(words);
    vec![
        Row::new("LM of 2 words", vec![0x8910, address], address, 2),
        Row::new("LM of 16 words", vec![0x89F0, address], address, 16),
        Row::new("STM of 2 words", vec![0x9910, address], address, 2),
        Row::new("STM of 16 words", vec![0x99F0, address], address, 16),
        Row::new("POPM R4,R5", vec![0x8F45], address, 2).with(15, address),
        Row::new("POPM R0,R15", vec![0x8F0F], address, 16).with(15, address),
        Row::new("POPM R15,R14", vec![0x8FFE], address, 16).with(15, address),
        Row::new("PSHM R4,R5", vec![0x9F45], address, 2).with(15, above(2)),
        Row::new("PSHM R0,R15", vec![0x9F0F], address, 16).with(15, above(16)),
        Row::new("PSHM R15,R14", vec![0x9FFE], address, 16).with(15, above(16)),
    ]
}

/// XIO with the command SMK.
pub(crate) fn command() -> Row {
    Row::new("XIO SMK", vec![0x4800 | (RA << 4), 0x2000], 0, 0)
}

/// The instructions without an operand in memory; BEX is with the interrupts, XIO with the
/// commands.
fn unmoved() -> Vec<Row> {
    let mut rows: Vec<Row> = (1..)
        .zip(IMMEDIATE)
        .map(|(extension, name)| {
            Row::new(format!("{name} IM"), vec![0x4A00 | (RA << 4) | extension, 0x6543], 0, 0)
        })
        .collect();
    rows.push(Row::new("LIM IM", vec![0x8540, 0xFEDC], 0, 0));
    rows.push(Row::new("LIM IMX", vec![0x8549, 0xFEDC], 0, 0).with(RX, INDEX));
    rows.extend(REGISTER.iter().map(|&(opcode, name)| {
        Row::new(format!("{name} {opcode:02X}"), vec![(opcode << 8) | (RA << 4) | RB], 0, 0)
    }));
    rows.push(Row::new("NOP", vec![0xFF00], 0, 0));
    rows.push(Row::new("BPT", vec![0xFFFF], 0, 0));
    rows
}

/// Every instruction in every mode for an operand at an address; of the base registers R12 alone.
pub(crate) fn rows(address: u16) -> Vec<Row> {
    let memory = direct(address).chain(indirect(address, POINTER)).chain(based(address, 0));
    memory.chain(stacked(address)).chain(unmoved()).collect()
}

/// The base relative modes with R13 to R15.
pub(crate) fn other_bases(address: u16) -> Vec<Row> {
    (1..4).flat_map(|base| based(address, base)).collect()
}

/// The modes in which a register carries the sum from below FFFF to a low address: that of the
/// operand, of a jump's target, or of the indirect word.
pub(crate) fn carried() -> Vec<Row> {
    let low = 0x0006;
    let rows = direct(low).chain(based(low, 0)).chain(indirect(0x2100, low));
    rows.filter(Row::summed).collect()
}

/// The modes with an index register.
pub(crate) fn with_index(address: u16) -> Vec<Row> {
    let rows = direct(address).chain(indirect(address, POINTER)).chain(based(address, 0));
    rows.filter(|row| row.registers.iter().any(|(number, _)| *number == RX)).collect()
}
