//! Arithmetic on pairs of notable numbers: borders, signs, zeros, operands that are not normalised.

use super::case::{hex, Case};

/// Instructions on the accumulator in R4 and up and the operand in R8 and up.
const SINGLE: &[(u16, &str)] = &[
    (0xA148, "AR"),
    (0xB148, "SR"),
    (0xC148, "MSR"),
    (0xC548, "MR"),
    (0xD148, "DVR"),
    (0xD548, "DR"),
    (0xF148, "CR"),
];
const DOUBLE: &[(u16, &str)] =
    &[(0xA748, "DAR"), (0xB748, "DSR"), (0xC748, "DMR"), (0xD748, "DDR"), (0xF748, "DCR")];
const FLOAT: &[(u16, &str)] =
    &[(0xA948, "FAR"), (0xB948, "FSR"), (0xC948, "FMR"), (0xD948, "FDR"), (0xF948, "FCR")];
const EXTENDED: &[(u16, &str)] =
    &[(0xAB48, "EFAR"), (0xBB48, "EFSR"), (0xCB48, "EFMR"), (0xDB48, "EFDR"), (0xFB48, "EFCR")];

/// Integers: accumulator of two words, operand of two words.
const INTEGERS: &[([u16; 2], [u16; 2])] = &[
    ([0x7FFF, 0xFFFF], [0x0001, 0x0000]),
    ([0x8000, 0x0000], [0xFFFF, 0xFFFF]),
    ([0x8000, 0x0001], [0x8000, 0x0000]),
    ([0xFFFF, 0xFFF9], [0x0003, 0x0000]),
    ([0x0000, 0x0007], [0xFFFD, 0xFFFE]),
    ([0x0001, 0x0000], [0x0000, 0x0000]),
    ([0x0000, 0x0000], [0x0000, 0x0005]),
    ([0x3FFF, 0x8001], [0x4000, 0x7FFF]),
    ([0xC000, 0x0000], [0x8000, 0x0001]),
    ([0x0000, 0xB504], [0x0000, 0xB505]),
];

/// Floats of both widths: mantissa and exponent as words, the third for the extended width.
const FLOATS: &[([u16; 3], [u16; 3])] = &[
    // exact halves and powers of two
    ([0x4000, 0x0001, 0], [0x4000, 0x0001, 0]),
    ([0x8000, 0x0000, 0], [0x8000, 0x0000, 0]),
    ([0x8000, 0x007E, 0], [0x4000, 0x0000, 0]),
    ([0xA000, 0x007F, 0], [0x6000, 0x0000, 0]),
    // the ends of the exponent's range
    ([0x7FFF, 0xFF7F, 0xFFFF], [0x4000, 0x007F, 0]),
    ([0x4000, 0x0080, 0], [0x4000, 0x0080, 0]),
    ([0x8000, 0x007F, 0], [0x7FFF, 0xFF7F, 0xFFFF]),
    ([0x4000, 0x0081, 0], [0xBFFF, 0xFF80, 0xFFFF]),
    // alignment by much, little, and a bit lost below zero
    ([0x4000, 0x0100, 1], [0xFFFF, 0xFFE8, 0xFFFF]),
    ([0x4000, 0x0101, 1], [0xBFFF, 0xFFE0, 0xFFFF]),
    ([0x5555, 0x5505, 0x5555], [0xAAAA, 0xAA03, 0xAAAA]),
    ([0x9999, 0x99FD, 0x9999], [0x6666, 0x6602, 0x6666]),
    // zeros, with and without an exponent
    ([0x0000, 0x0000, 0], [0x5000, 0x0004, 0x0001]),
    ([0x5000, 0x0004, 1], [0x0000, 0x0000, 0]),
    ([0x0000, 0x0040, 0], [0x4000, 0x00C0, 0]),
    ([0x9000, 0x0004, 1], [0x0000, 0x0005, 0]),
    ([0x0000, 0x007F, 0], [0x4000, 0x007F, 0]),
    ([0x0000, 0x0080, 0], [0x4000, 0x0001, 0]),
    // not normalised
    ([0x0001, 0x0004, 0], [0x0003, 0x0002, 0]),
    ([0xFFFF, 0xFF00, 0xFFFF], [0x0000, 0x0100, 0x0001]),
    ([0x1000, 0x007F, 0x8000], [0xF000, 0x0001, 0x0001]),
    ([0x4000, 0x007F, 0], [0x0000, 0x0100, 0]),
    ([0x4000, 0x0070, 0], [0x0000, 0x0100, 0]),
    // equal or nearly equal values with other exponents
    ([0x2000, 0x0002, 0], [0x4000, 0x0001, 0]),
    ([0x0001, 0x0004, 0], [0x4000, 0x0001, 0]),
    ([0xC000, 0x0003, 0], [0x8000, 0x0001, 0]),
    ([0x0000, 0x0128, 1], [0x4000, 0x0000, 0]),
    ([0x0000, 0x0028, 1], [0x4000, 0x0000, 0]),
    ([0xFFFF, 0xFF18, 0xFFFF], [0x8000, 0x0000, 0]),
    // -1.0 times -1.0, the sum of the exponents 127, 126, -128 and -129
    ([0x8000, 0x0040, 0], [0x8000, 0x003F, 0]),
    ([0x8000, 0x0040, 0], [0x8000, 0x003E, 0]),
    ([0x8000, 0x0080, 0], [0x8000, 0x0000, 0]),
    ([0x8000, 0x0080, 0], [0x8000, 0x00FF, 0]),
    // quotients within the range, but the difference of the exponents 128 or -129
    ([0x0001, 0x007F, 0], [0x4000, 0x00FF, 0]),
    ([0x0001, 0x007F, 0], [0xBFFF, 0xFFFF, 0]),
    ([0x6000, 0x0080, 0], [0x4000, 0x0001, 0]),
    ([0xA000, 0x0080, 0], [0x4000, 0x0001, 0]),
    // sums of which little is left, at exponents that normalising leaves within the range or not
    ([0x6000, 0x0184, 1], [0xA000, 0x0084, 0]),
    ([0x6000, 0x0196, 1], [0xA000, 0x0096, 0]),
    ([0x6000, 0x0195, 1], [0xA000, 0x0095, 0]),
    ([0x4000, 0x0184, 1], [0x4000, 0x0084, 0]),
    // exponents out of range with a zero, with each sign
    ([0x0000, 0x007F, 0], [0x8000, 0x007F, 0]),
    ([0x0000, 0x0080, 0], [0x4000, 0x0080, 0]),
    ([0x0000, 0x007F, 0], [0x4000, 0x0080, 0]),
    ([0x0000, 0x007F, 0], [0x8000, 0x0080, 0]),
    ([0x0000, 0x007F, 0], [0xA000, 0x00FF, 0]),
    ([0x4000, 0x007F, 0], [0x8000, 0x0080, 0]),
    ([0x0000, 0x0000, 0], [0x0000, 0x0000, 0]),
    ([0x8000, 0x0080, 0], [0x0000, 0x007F, 0]),
];

/// Floats and integers for the conversions and sign changes.
const ONE_OPERAND: &[(u16, &str)] = &[
    (0xE848, "FIX"),
    (0xEA48, "EFIX"),
    (0xE948, "FLT"),
    (0xEB48, "EFLT"),
    (0xAC48, "FABS"),
    (0xBC48, "FNEG"),
    (0xA448, "ABS"),
    (0xA548, "DABS"),
    (0xB448, "NEG"),
    (0xB548, "DNEG"),
];
const OPERANDS: &[[u16; 3]] = &[
    [0x4000, 0x000F, 0],
    [0x7FFF, 0xFF0F, 0xFFFF],
    [0x8000, 0x000F, 0],
    [0x8000, 0x0010, 0],
    [0x4000, 0x0010, 0],
    [0xBFFF, 0xFF01, 0xFFFF],
    [0xFFFF, 0xFF00, 0xFFFF],
    [0x0000, 0x001F, 0x0000],
    [0x0000, 0x0020, 0x0000],
    [0x7FFF, 0xFF1F, 0xFFFF],
    [0x8000, 0x001F, 0x0001],
    [0x0000, 0x0180, 0x0001],
    [0x8000, 0x007F, 0],
    [0x8000, 0x0080, 0],
    [0x4000, 0x0080, 0],
    [0x0000, 0x0000, 0],
];

/// Each pair under each instruction.
fn pairs(uses: &[(u16, &str)], rows: &[(&[u16], &[u16])], cases: &mut Vec<Case>) {
    for (word, name) in uses {
        for (accumulator, operand) in rows {
            let title = format!("{name} on {} and {}", hex(accumulator), hex(operand));
            let case = Case::on(title, &[*word]);
            cases.push(case.registers(4, accumulator).registers(8, operand));
        }
    }
}

/// The instructions on the accumulator in R4 with an operand of 1 to 16 in their second field.
const SHORT: &[(u16, &str)] = &[
    (0x82, "LISP"),
    (0x83, "LISN"),
    (0xA2, "AISP"),
    (0xB2, "SISP"),
    (0xC2, "MISP"),
    (0xC3, "MISN"),
    (0xD2, "DISP"),
    (0xD3, "DISN"),
    (0xF2, "CISP"),
    (0xF3, "CISN"),
];

/// The smallest and the largest operand in a field, on accumulators between them and beyond.
fn shorts(cases: &mut Vec<Case>) {
    for (opcode, name) in SHORT {
        for operand in [1, 16] {
            for accumulator in [0x0008, 0xFFF8, 0x7FFF, 0x8000] {
                let title = format!("{name} by {operand} on {accumulator:04X}");
                let case = Case::on(title, &[(opcode << 8) | 0x40 | (operand - 1)]);
                cases.push(case.registers(4, &[accumulator, 0x1234]));
            }
        }
    }
}

/// Each operand under each instruction that has one.
fn ones(cases: &mut Vec<Case>) {
    for (word, name) in ONE_OPERAND {
        for operand in OPERANDS {
            let case = Case::on(format!("{name} of {}", hex(operand)), &[*word]);
            cases.push(case.registers(4, &[0x1111, 0x2222, 0x3333]).registers(8, operand));
        }
    }
}

/// FIX and EFIX of too large a number: CS is set from the registers, which stay as they are.
fn too_large(cases: &mut Vec<Case>) {
    for pair in [[0x0000, 0x8000], [0x0000, 0x0001], [0x0001, 0], [0x8000, 0], [0xFFFF, 0], [0, 0]]
    {
        for (word, name) in [(0xE848, "FIX"), (0xEA48, "EFIX")] {
            let title = format!("{name} of too large a number on {}", hex(&pair));
            let case = Case::on(title, &[word]).sw(0x8000).registers(4, &pair);
            cases.push(case.registers(8, &[0x4000, 0x0020, 0]));
        }
    }
}

/// All cases of this group.
pub(crate) fn cases(cases: &mut Vec<Case>) {
    let integers: Vec<_> = INTEGERS.iter().map(|(a, o)| (&a[..], &o[..])).collect();
    let singles: Vec<_> = FLOATS.iter().map(|(a, o)| (&a[..2], &o[..2])).collect();
    let floats: Vec<_> = FLOATS.iter().map(|(a, o)| (&a[..], &o[..])).collect();
    pairs(SINGLE, &integers, cases);
    pairs(DOUBLE, &integers, cases);
    pairs(FLOAT, &singles, cases);
    pairs(EXTENDED, &floats, cases);
    shorts(cases);
    ones(cases);
    too_large(cases);
}
