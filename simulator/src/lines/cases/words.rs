//! Words to print: every opcode with several low bytes, every extension, fields that no line shows,
//! second words that are not looked at.

use super::Requests;

/// Low bytes that every opcode is printed with.
const LOW: [u16; 10] = [0x00, 0x01, 0x0F, 0x10, 0x3A, 0x7F, 0x80, 0xA5, 0xF0, 0xFF];
/// More of them for one opcode of a form.
const MORE: [u16; 18] = [
    0x02, 0x0A, 0x0B, 0x13, 0x14, 0x63, 0x64, 0x65, 0x7E, 0x81, 0x9B, 0x9C, 0x9D, 0xC8, 0xF6, 0xF7,
    0xFD, 0xFE,
];

/// Fields that no line shows: opcode and the place of the field.
const HIDDEN: [(u16, u32); 5] = [(0x77, 4), (0x7C, 4), (0x7D, 4), (0x7F, 0), (0xEC, 0)];

/// The opcodes whose operation is in an extension.
fn extensions(requests: &mut Requests) {
    for opcode in [0x40, 0x4A, 0xFF] {
        for low in 0x00..=0xFF {
            requests.words((opcode << 8) | low, 0x2468);
        }
    }
    for opcode in 0x41..=0x43 {
        for extension in 0x0..=0xF {
            requests.words((opcode << 8) | (extension << 4), 0x0000);
            requests.words((opcode << 8) | (extension << 4) | 0x9, 0xFFFF);
        }
    }
}

/// All of them.
pub(super) fn requests(requests: &mut Requests) {
    for opcode in 0x00..=0xFF {
        for (index, low) in LOW.into_iter().enumerate() {
            requests.words((opcode << 8) | low, [0x0000, 0x9ABC, 0xFFFF][index % 3]);
        }
    }
    for opcode in [0x00, 0x3F, 0x48, 0x51, 0x60, 0x74, 0x7B, 0x81, 0x82, 0xA3] {
        for low in MORE {
            requests.words((opcode << 8) | low, 0xDEF0);
        }
    }
    extensions(requests);
    for (opcode, shift) in HIDDEN {
        for hidden in 0x0..=0xF {
            for shown in [0x0, 0x6, 0xF] {
                let low = (hidden << shift) | (shown << (4 - shift));
                requests.words((opcode << 8) | low, 0x1357);
            }
        }
    }
    for second in [0x0000, 0x0001, 0x00FF, 0x7FFF, 0x8000, 0x8240, 0xFF00, 0xFFFF] {
        for first in [0x823F, 0x7480, 0x0012, 0x4035, 0xFF00, 0x8012, 0x4A11, 0x4812, 0x9500] {
            requests.words(first, second);
        }
    }
}
