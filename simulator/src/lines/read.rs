//! Reading: the words of a line, or the number of its refusal.

use super::find::of_name;
use super::operand::Operand::{Rx, Word};
use super::table::Instruction;

/// The refusals: an unknown mnemonic, operands of another form, an operand outside its field.
const UNKNOWN: u8 = 14;
const FORM: u8 = 15;
const OUTSIDE: u8 = 16;

/// The words of an instruction: one or two.
#[derive(Clone, Copy, Debug, PartialEq, Eq)]
pub enum Words {
    One(u16),
    Two(u16, u16),
}

/// The words of a line, or 14, 15 or 16.
pub fn read(line: &[u8]) -> Result<Words, u8> {
    let blank = line.iter().position(|byte| *byte == b' ');
    let name = &line[..blank.unwrap_or(line.len())];
    let instruction = of_name(name).ok_or(UNKNOWN)?;
    operands(instruction, blank.map(|blank| &line[blank + 1..]))
}

/// The words of an instruction with the text after its blank, if there is one.
fn operands(instruction: &Instruction, text: Option<&[u8]>) -> Result<Words, u8> {
    let mut texts = text.into_iter().flat_map(|text| text.split(|byte| *byte == b','));
    let (mut first, mut second, mut inside) = (instruction.code, None, true);
    for operand in instruction.operands {
        let Some(text) = texts.next() else {
            // Only an index may be left out.
            if *operand == Rx {
                break;
            }
            return Err(FORM);
        };
        let number = operand.number(text).ok_or(FORM)?;
        if !operand.holds(number) {
            inside = false;
        } else if *operand == Word {
            second = Some(operand.bits(number));
        } else {
            first |= operand.bits(number);
        }
    }
    match (texts.next(), inside) {
        (Some(_), _) => Err(FORM),
        (None, false) => Err(OUTSIDE),
        (None, true) => Ok(second.map_or(Words::One(first), |second| Words::Two(first, second))),
    }
}
