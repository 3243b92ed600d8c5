//! Lines of the input that are no request, and every byte in the places of a request where it may
//! make a difference.

use super::Requests;

/// Lines that are malformed.
const MALFORMED: &[&str] = &[
    "",
    " ",
    "  ",
    "W",
    "W ",
    "W  ",
    "L",
    "WL",
    "LW",
    "W 8",
    "W 823F",
    "W 823F ",
    "W 823F 0",
    "W 823F 000",
    "W 823F 00000",
    "W 823F0000",
    "W 823F00000",
    "W 823F  000",
    "W 823F  0000",
    "W  823F 0000",
    "W823F 0000",
    "W 823 0000",
    "W 823 00000",
    "W 823F0 000",
    "W 0823F 0000",
    "W 823F 0000 ",
    "W 823F 0000\r",
    "W 823F 0000\t",
    "W 823F 0000 0000",
    "W 823F 0000,",
    " W 823F 0000",
    "w 823F 0000",
    "W 823f 0000",
    "W 823F 00ab",
    "W 823F 000a",
    "W a000 0000",
    "W 823G 0000",
    "W 823F 000G",
    "W 82-F 0000",
    "W +23F 0000",
    "W 823F -001",
    "W 0x82 0000",
    "W 823F\t0000",
    "W\t823F 0000",
    "W 823F,0000",
    "W 823F:0000",
    "W823F0000",
    "W: 823F 0000",
    "WW 823F 0000",
    "823F 0000",
    "823F",
    "R 823F 0000",
    "P 823F 0000",
    "M 823F 0000",
    "l NOP",
    "LNOP",
    "L\tNOP",
    "L:NOP",
    "LL NOP",
    " L NOP",
    "N NOP",
    "NOP",
    "LISP R3,16",
    "X LISP R3,16",
    "# a remark",
    "#",
    "\r",
    "\t",
    "\0",
    "W\0",
    "L\0",
    "L\r",
    "\u{feff}L NOP",
    "\u{ff37} 823F 0000",
    "W 823F 000\u{b2}",
    "W \u{0664}23F 000",
    "refused 14",
    "malformed line 1",
];

/// Lines that are requests, though they may look malformed.
const READ: &[&str] = &[
    "",
    " ",
    "  ",
    "\r",
    "\t",
    "\0",
    "NOP\r",
    "BPT\r",
    "LISP R3,16\r",
    "LISP R3,16 ",
    "LISP R3,16\0",
    "LISP\0R3,16",
    "LISP\u{a0}R3,16",
    "L R1,0100",
    "L L R1,0100",
    "W 823F 0000",
    "L",
    "W",
    " L R1,0100",
    "# a remark",
    "LISP R3,16 # a remark",
    "LISP R3,16;",
    "\u{feff}NOP",
    "NOP NOP",
    "NOP\u{b}",
    "NOP,NOP",
];

/// Texts with a place for one byte: what stands before it, and what after it.
const PLACES: &[(&str, &str)] = &[
    ("", " 823F 0000"),
    ("W 823", " 0000"),
    ("W 823F", "0000"),
    ("W 823F 000", ""),
    ("W 823F 0000", ""),
    ("L ", "NOP"),
    ("L NOP", ""),
    ("L LISP", "R3,1"),
    ("L LISP R", ",1"),
    ("L LISP R3,1", ""),
    ("L BR ", ""),
    ("L BR -12", ""),
    ("L L R1,010", ""),
    ("L L R1,0100,R", ""),
];

/// All of them.
pub(super) fn requests(requests: &mut Requests) {
    for line in MALFORMED {
        requests.line(line.as_bytes());
    }
    for line in READ {
        requests.read(line);
    }
    for (before, after) in PLACES {
        for byte in (0..=0xFF).filter(|byte| *byte != b'\n') {
            requests.line(&[before.as_bytes(), &[byte], after.as_bytes()].concat());
        }
    }
    requests.line(&vec![b'W'; 1_000]);
    requests.line(format!("W 823F {}", "0".repeat(1_000)).as_bytes());
}
