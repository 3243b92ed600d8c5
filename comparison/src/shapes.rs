//! The shape of each instruction, and the forms that the comparison counts: opcode and mode.

/// What follows an opcode.
#[derive(Clone, Copy, Debug, PartialEq, Eq)]
pub enum Shape {
    /// Base register in the opcode, displacement in the lower byte.
    Base,
    /// Base register in the opcode, operation and index in the lower byte.
    BaseIndexed,
    /// XIO.
    Command,
    /// 4A: register and operation in the lower byte, then the operand.
    Immediate,
    /// Register and index, then an address or an operand.
    Direct,
    /// Register and index, then the address of an address.
    Indirect,
    /// Two fields, no access to memory.
    Registers,
    /// Two fields and an access to memory through registers: URS, POPM, MOV, PSHM.
    Block,
    /// A displacement from IC.
    Relative,
    /// FF: NOP and BPT.
    Special,
}

/// The shapes of all opcodes.
const SHAPES: [Option<Shape>; 256] = {
    let mut shapes = [None; 256];
    let mut opcode = 0;
    while opcode < 256 {
        shapes[opcode] = listed(opcode as u8);
        opcode += 1;
    }
    shapes
};

/// The shape of an opcode of section 5, nothing for an illegal one.
pub fn shape(opcode: u8) -> Option<Shape> {
    SHAPES[usize::from(opcode)]
}

/// The shape of an opcode by the pages of section 5.
const fn listed(opcode: u8) -> Option<Shape> {
    Some(match opcode {
        0x00..=0x3F => Shape::Base,
        0x40..=0x43 => Shape::BaseIndexed,
        0x48 => Shape::Command,
        0x4A => Shape::Immediate,
        0x52 | 0x55 | 0x58 | 0x71 | 0x7C | 0x84 | 0x88 => Shape::Indirect,
        0x8D | 0x8E | 0x92 | 0x94 | 0x98 | 0x9D | 0x9E => Shape::Indirect,
        0x74..=0x76 | 0x78..=0x7B => Shape::Relative,
        0x7F | 0x8F | 0x93 | 0x9F => Shape::Block,
        0x50 | 0x53 | 0x56 | 0x59 | 0x70 | 0x72 | 0x73 | 0x7D | 0x7E => Shape::Direct,
        0x80 | 0x85 | 0x86 | 0x89..=0x8C => Shape::Direct,
        0x90 | 0x91 | 0x96 | 0x97 | 0x99..=0x9C => Shape::Direct,
        0xA0 | 0xA3 | 0xA6 | 0xA8 | 0xAA | 0xB0 | 0xB3 | 0xB6 | 0xB8 | 0xBA => Shape::Direct,
        0xC0 | 0xC4 | 0xC6 | 0xC8 | 0xCA | 0xD0 | 0xD4 | 0xD6 | 0xD8 | 0xDA => Shape::Direct,
        0xE0 | 0xE2 | 0xE4 | 0xE6 | 0xF0 | 0xF4 | 0xF6 | 0xF8 | 0xFA => Shape::Direct,
        0x51 | 0x54 | 0x57 | 0x5A | 0x5C | 0x5E | 0x60..=0x63 | 0x65..=0x68 => Shape::Registers,
        0x6A..=0x6F | 0x77 | 0x81..=0x83 | 0x87 => Shape::Registers,
        0xA1 | 0xA2 | 0xA4 | 0xA5 | 0xA7 | 0xA9 | 0xAB | 0xAC => Shape::Registers,
        0xB1 | 0xB2 | 0xB4 | 0xB5 | 0xB7 | 0xB9 | 0xBB | 0xBC => Shape::Registers,
        0xC1..=0xC3 | 0xC5 | 0xC7 | 0xC9 | 0xCB => Shape::Registers,
        0xD1..=0xD3 | 0xD5 | 0xD7 | 0xD9 | 0xDB => Shape::Registers,
        0xE1 | 0xE3 | 0xE5 | 0xE7..=0xED => Shape::Registers,
        0xF1..=0xF3 | 0xF7 | 0xF9 | 0xFB => Shape::Registers,
        0xFF => Shape::Special,
        _ => return None,
    })
}

impl Shape {
    /// Whether the instruction has a second word.
    pub fn two_words(self) -> bool {
        matches!(self, Shape::Command | Shape::Immediate | Shape::Direct | Shape::Indirect)
    }

    /// Whether the last field of the first word is an index register.
    pub fn indexed(self) -> bool {
        use Shape::{BaseIndexed, Command, Direct, Indirect};
        matches!(self, BaseIndexed | Command | Direct | Indirect)
    }

    /// Whether the instruction can fault once its first word is fetched.
    pub fn can_fault(self) -> bool {
        !matches!(self, Shape::Registers | Shape::Relative | Shape::Special)
    }
}

/// How many numbers of forms there are, most of them unused.
pub const FORMS: usize = 256 * 32;

/// The number of a first word's form: opcode, operation beside it, and whether it is indexed.
pub fn form(word: u16) -> Option<usize> {
    let shape = shape((word >> 8) as u8)?;
    let extension = match shape {
        Shape::BaseIndexed => (word >> 4) & 0xF,
        Shape::Immediate if !(0x1..=0xB).contains(&(word & 0xF)) => return None,
        Shape::Immediate => word & 0xF,
        Shape::Special if word != 0xFF00 && word != 0xFFFF => return None,
        Shape::Special => word & 0xF,
        _ => 0,
    };
    let indexed = shape.indexed() && word & 0xF != 0;
    Some(usize::from(word >> 8) * 32 + usize::from(extension) * 2 + usize::from(indexed))
}

/// Every form of section 5, in order.
pub fn forms() -> Vec<usize> {
    let mut forms: Vec<usize> = (0..=0xFFFF).filter_map(form).collect();
    forms.sort_unstable();
    forms.dedup();
    forms
}

/// The shape of a form.
pub fn shape_of_form(form: usize) -> Shape {
    shape((form / 32) as u8).expect("a form of section 5")
}

/// A form in print: opcode, operation, `x` where it is indexed.
pub fn form_name(form: usize) -> String {
    let (opcode, extension) = (form / 32, form / 2 % 16);
    let mut name = format!("{opcode:02X}");
    if matches!(shape_of_form(form), Shape::BaseIndexed | Shape::Immediate | Shape::Special) {
        name += &format!(".{extension:X}");
    }
    if form % 2 == 1 {
        name += "x";
    }
    name
}

#[cfg(test)]
mod tests {
    use super::{form, shape, Shape};
    use simulator::{reset, run};
    use twin1750::HUNDRED_EACH;

    #[test]
    fn every_first_word_is_as_in_the_simulator() {
        let (mut memory, mut pages, mut ports) = (vec![0; 65_536], vec![0; 512], vec![0; 1024]);
        let start = reset(&mut memory, &mut pages, &mut ports);
        // The word stands last on page 0; page 1 is execute protected, so that a second one faults.
        pages[1] |= 0x0800;
        for word in 0..=0xFFFF {
            let mut state = start.clone();
            state.ic = 0x0FFF;
            memory[0x0FFF] = word;
            run(&mut state, &mut memory, &mut pages, &mut ports, &HUNDRED_EACH, 1)
                .expect("an accepted run");
            let legal = form(word).is_some();
            let two = legal && shape((word >> 8) as u8).is_some_and(Shape::two_words);
            let fault = if !legal { 0x0040 } else { u16::from(two) << 15 };
            assert_eq!(state.ft, fault, "first word {word:04X}");
        }
    }
}
