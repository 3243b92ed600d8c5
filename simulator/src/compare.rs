//! Compare instructions, no operation and break point, opcodes F0 to FF.

use crate::address::{fields, short};
use crate::float::{EXTENDED, SINGLE};
use crate::machine::{Done, Fault, Machine};
use crate::state::{CARRY, NEGATIVE, POSITIVE, ZERO};
use std::cmp::Ordering;

impl Machine<'_> {
    /// Opcodes F0 to FF.
    pub(crate) fn compares(&mut self, word: u16) -> Done {
        let (a, b) = fields(word);
        match word >> 8 {
            0xF0 => {
                let operand = self.direct_word(word)?;
                self.compare(a, operand); // 5.91 C
            }
            0xF1 => self.compare(a, self.register(b)), // 5.91 CR
            0xF2 => self.compare(a, short(word)),      // 5.91 CISP
            0xF3 => self.compare(a, short(word).wrapping_neg()), // 5.91 CISN
            0xF4 => return self.compare_between(word), // 5.92 CBL
            0xF6 => {
                let operand = self.direct_double(word)?;
                self.double_compare(a, operand); // 5.93 DC
            }
            0xF7 => self.double_compare(a, self.pair(b)), // 5.93 DCR
            0xF8 => return self.float_compare_direct(word, SINGLE), // 5.94 FC
            0xF9 => self.float_compare(a, self.float_register(b, SINGLE), SINGLE), // 5.94 FCR
            0xFA => return self.float_compare_direct(word, EXTENDED), // 5.95 EFC
            0xFB => self.float_compare(a, self.float_register(b, EXTENDED), EXTENDED), // 5.95 EFCR
            _ if word == 0xFF00 => {}                     // 5.96 NOP
            _ if word == 0xFFFF => {}                     // 5.97 BPT
            _ => return Err(Fault::ILLEGAL),
        }
        Ok(())
    }

    /// 5.91: CS from RA against the operand, both signed.
    pub(crate) fn compare(&mut self, a: usize, operand: u16) {
        self.order_condition((self.register(a) as i16).cmp(&(operand as i16)));
    }

    /// 5.93: CS from RA and RA+1 against the operand, both signed.
    fn double_compare(&mut self, a: usize, operand: u32) {
        self.order_condition((self.pair(a) as i32).cmp(&(operand as i32)));
    }

    /// 5.92 CBL: below, within or above two limits; 1000 for limits in the wrong order.
    fn compare_between(&mut self, word: u16) -> Done {
        let address = self.direct(word)?;
        let [low, high] = self.read_words(address)?.map(|limit: u16| limit as i16);
        let value = self.register(fields(word).0) as i16;
        let condition = if low > high {
            CARRY
        } else if value < low {
            NEGATIVE
        } else if value <= high {
            ZERO
        } else {
            POSITIVE
        };
        self.state.set_condition(condition);
        Ok(())
    }

    /// CS from an ordering.
    pub(crate) fn order_condition(&mut self, order: Ordering) {
        self.state.set_condition(match order {
            Ordering::Less => NEGATIVE,
            Ordering::Equal => ZERO,
            Ordering::Greater => POSITIVE,
        });
    }
}
