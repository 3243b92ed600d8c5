//! Mnemonics that are unknown: misprints, other names of the standard, names that follow its
//! patterns, all names of one and two letters, and the mnemonics changed a little.

use super::{line, usual, Requests};
use crate::lines::table::TABLE;

/// Names that are no mnemonic: misprints of the scan, allowed names of 5.46, VIO, names by the
/// patterns of 4.8.2, names of commands and conditions.
const NAMES: &[&str] = &[
    "SDR",
    "NSR",
    "OSLC",
    "EFOR",
    "SA",
    "OST",
    "OSTX",
    "L8X",
    "JC1",
    "SLB1",
    "XQR",
    "SI.C",
    "DSC.C",
    "STZ",
    "STZI",
    "VIO",
    "DSTBX",
    "ANDBX",
    "ANDIM",
    "XORIM",
    "STUBI",
    "STLBI",
    "LLI",
    "FL",
    "FLR",
    "EFLR",
    "STR",
    "ORX",
    "XORB",
    "XORX",
    "NB",
    "NBX",
    "NIX",
    "INC",
    "DEC",
    "JSR",
    "JMP",
    "BRX",
    "CBLX",
    "LMI",
    "STMI",
    "EFAB",
    "DAB",
    "DSB",
    "SLLI",
    "LISX",
    "AISN",
    "SISN",
    "FLOAT",
    "BNE",
    "BEQ",
    "SMK",
    "CLIR",
    "ENBL",
    "DSBL",
    "RPI",
    "SPI",
    "WSW",
    "PI",
    "PO",
    "RMK",
    "TAS",
    "OTA",
    "WIPR",
    "ROPR",
    "LT",
    "EQ",
    "CY",
    "R3",
    "LISPR3",
    "LISP,R3",
    "NOPE",
    "XNOP",
    "NOP\t",
    "NOP\r",
    "NOP\0",
    "NOP,",
    "NOP.",
    "\u{e9}",
    "L\u{a0}R1",
    "A\0",
    "A\0\0\0",
    "\0",
    "\0A",
    "LISPLISP",
    "123F",
    "0",
    "-",
    ",",
];

/// A mnemonic in small letters, cut, with a letter more, with two letters exchanged.
fn changed(name: &str) -> Vec<String> {
    let mut bytes = name.as_bytes().to_vec();
    bytes.rotate_left(1);
    let rotated: String = bytes.into_iter().map(char::from).collect();
    let small = name.to_lowercase();
    vec![small, name[1..].into(), name[..name.len() - 1].into(), format!("{name}X"), rotated]
}

/// All of them, with operands that would fit and without.
pub(super) fn requests(requests: &mut Requests) {
    for name in NAMES {
        requests.read(name);
        requests.read(format!("{name} "));
        requests.read(format!("{name} R1,0100"));
        requests.read(format!("{name} R99,x"));
    }
    for instruction in &TABLE {
        for name in changed(instruction.name) {
            requests.read(line(&name, &usual(instruction)));
        }
    }
    for first in b'A'..=b'Z' {
        requests.read([first]);
        for second in b'A'..=b'Z' {
            requests.read([first, second]);
        }
    }
    requests.read("A".repeat(1_000));
    requests.read(format!("LISP {}", "R".repeat(500)));
    requests.read(format!("L R1,{}", "0".repeat(500)));
    requests.read(format!("NOP{}", " ".repeat(500)));
    requests.read(format!("LISP R3{}", ",1".repeat(300)));
}
