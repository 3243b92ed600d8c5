//! Known lines: words and lines that belong together, and lines with a known refusal.

use super::Requests;

/// First word, second word and the line; an instruction of one word has 0 here.
const BOTH_WAYS: &[(u16, u16, &str)] = &[
    (0x823F, 0, "LISP R3,16"),
    (0x8330, 0, "LISN R3,1"),
    (0xC3F0, 0, "MISN R15,1"),
    (0x60F5, 0, "SLL R5,16"),
    (0x6005, 0, "SLL R5,1"),
    (0x5135, 0, "SBR 3,R5"),
    (0x5A35, 0, "SVBR R3,R5"),
    (0x6A35, 0, "SLR R3,R5"),
    (0x50F2, 0x1234, "SB 15,1234,R2"),
    (0x50F0, 0x1234, "SB 15,1234"),
    (0xA3F0, 0x0100, "INCM 16,0100"),
    (0xA300, 0x0100, "INCM 1,0100"),
    (0x8930, 0x2000, "LM 3,2000"),
    (0x9100, 0x0200, "STC 0,0200"),
    (0x4810, 0x2000, "XIO R1,2000"),
    (0x4812, 0x2000, "XIO R1,2000,R2"),
    (0x853A, 0xBEEF, "LIM R3,BEEF,R10"),
    (0x4A3B, 0x00FF, "NIM R3,00FF"),
    (0x4A31, 0x0005, "AIM R3,0005"),
    (0x7070, 0x00AB, "JC 7,00AB"),
    (0x71F1, 0xFFFF, "JCI 15,FFFF,R1"),
    (0x7310, 0x0100, "SOJ R1,0100"),
    (0x7480, 0, "BR -128"),
    (0x74FF, 0, "BR -1"),
    (0x7400, 0, "BR 0"),
    (0x797F, 0, "BGT 127"),
    (0x0000, 0, "LB R12,0"),
    (0x3FFF, 0, "FCB R15,255"),
    (0x1680, 0, "SBB R14,128"),
    (0x4310, 0, "DLBX R15"),
    (0x4317, 0, "DLBX R15,R7"),
    (0x40E1, 0, "ANDX R12,R1"),
    (0x40FF, 0, "ORBX R12,R15"),
    (0x4033, 0, "DSTX R12,R3"),
    (0x4290, 0, "FSBX R14"),
    (0xFF00, 0, "NOP"),
    (0xFFFF, 0, "BPT"),
];

/// Words with fields that no line shows, and the lines that they print.
const HIDDEN: &[(u16, u16, &str)] = &[
    (0x7D5A, 0x1000, "LST 1000,R10"),
    (0x77A3, 0, "BEX 3"),
    (0x7F3C, 0, "URS R3"),
    (0xEC5F, 0, "XBR R5"),
];

/// Words that begin no instruction.
const ILLEGAL: [u16; 5] = [0xFF0F, 0x4A30, 0x4A3C, 0x4400, 0x9500];

/// Lines without a known mnemonic.
const UNKNOWN: &[&str] = &[
    "",
    " NOP",
    "nop",
    "STZ 1000",
    "SDR 1,R2",
    "XYZ R99",
    "LISP\tR3,16",
    "STZI 1000",
    "VIO R1,2000",
];

/// Lines whose operands have another form than their box shows.
const FORM: &[&str] = &[
    "NOP ",
    "NOP R1",
    "LISP",
    "LISP ",
    "LISP R3",
    "LISP R3,-1",
    "LISP R03,1",
    "LISP r3,1",
    "LISP R3, 1",
    "LISP  R3,1",
    "LISP R3,1,",
    "LISP R16,x",
    "L R1,100",
    "L R1,01000",
    "L R1,00ab",
    "L R1,0100,R0",
    "L R16,0100,R0",
    "LBX R12,R0",
    "AIM R1,0001,R2",
    "BR -0",
    "BR 0128",
    "BR +1",
    "BR -",
    "LB R12,-1",
    "JC LT,0100",
    "JS R1,256",
    "XIO R1,SMK",
];

/// Lines with an operand outside its field.
const OUTSIDE: &[&str] = &[
    "LISP R3,0",
    "LISP R3,17",
    "LISP R16,1",
    "SLL R1,0",
    "SB 16,0100",
    "JC 16,0100",
    "LM 16,0100",
    "BEX 16",
    "BR 128",
    "BR -129",
    "LB R11,0",
    "LB R0,0",
    "LB R12,256",
    "L R1,0100,R16",
    "L R16,0100,R17",
    "LISP R3,99999999999999999999",
    "LISP R18446744073709551619,1",
];

/// All of them; the words also with other second words.
pub(super) fn requests(requests: &mut Requests) {
    for (first, second, line) in BOTH_WAYS.iter().chain(HIDDEN) {
        for second in [*second, 0x0000, 0x8001, 0xFFFF] {
            requests.words(*first, second);
        }
        requests.read(line);
    }
    for first in ILLEGAL {
        requests.words(first, 0x0000);
        requests.words(first, 0xFFFF);
    }
    for line in UNKNOWN.iter().chain(FORM).chain(OUTSIDE) {
        requests.read(line);
    }
}
