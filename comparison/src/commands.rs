//! The commands of XIO: their names and codes, the first and the last of each.

/// Every command that the machine has.
pub const COMMANDS: [(&str, u16, u16); 26] = [
    ("PO", 0x0000, 0x03FF),
    ("PI", 0x8000, 0x83FF),
    ("WIPR", 0x5100, 0x51FF),
    ("WOPR", 0x5200, 0x52FF),
    ("RIPR", 0xD100, 0xD1FF),
    ("ROPR", 0xD200, 0xD2FF),
    ("SMK", 0x2000, 0x2000),
    ("CLIR", 0x2001, 0x2001),
    ("ENBL", 0x2002, 0x2002),
    ("DSBL", 0x2003, 0x2003),
    ("RPI", 0x2004, 0x2004),
    ("SPI", 0x2005, 0x2005),
    ("WSW", 0x200E, 0x200E),
    ("RMK", 0xA000, 0xA000),
    ("RPIR", 0xA004, 0xA004),
    ("RMFS", 0xA00D, 0xA00D),
    ("RSW", 0xA00E, 0xA00E),
    ("RCFR", 0xA00F, 0xA00F),
    ("TAS", 0x4008, 0x4008),
    ("TAH", 0x4009, 0x4009),
    ("OTA", 0x400A, 0x400A),
    ("TBS", 0x400C, 0x400C),
    ("TBH", 0x400D, 0x400D),
    ("OTB", 0x400E, 0x400E),
    ("ITA", 0xC00A, 0xC00A),
    ("ITB", 0xC00E, 0xC00E),
];

/// Codes of other machines' commands and codes next to those above: all of them illegal.
pub const ILLEGAL: [u16; 17] = [
    0x0400, 0x7FFF, 0x8400, 0x2006, 0x200D, 0x200F, 0x4000, 0x400B, 0x50FF, 0x5300, 0xA001, 0xA00C,
    0xA010, 0xC00B, 0xD0FF, 0xD300, 0xFFFF,
];

/// The place of a command in the table, nothing for an illegal one.
pub fn command_of(code: u16) -> Option<usize> {
    COMMANDS.iter().position(|(_, first, last)| (*first..=*last).contains(&code))
}
