//! Floats in registers and memory, and the common course of the float instructions.

use crate::address::fields;
use crate::float::{compared, Float, Outcome, Width, SINGLE};
use crate::machine::{Done, Fault, Machine};
use crate::state::sign_condition;

/// An operation of the accumulator and an operand.
pub(crate) type Operation = fn(Float, Float, Width) -> Outcome;

impl Machine<'_> {
    /// The float in two or three registers.
    pub(crate) fn float_register(&self, number: usize, width: Width) -> Float {
        Float::unpack([0, 1, 2].map(|distance| self.register(number + distance)), width)
    }

    /// The float in two or three words of memory.
    pub(crate) fn float_at(&self, address: u16, width: Width) -> Result<Float, Fault> {
        let mut words = [0; 3];
        for (distance, word) in (0..).zip(words[..width.words].iter_mut()) {
            *word = self.read(address.wrapping_add(distance))?;
        }
        Ok(Float::unpack(words, width))
    }

    /// CS follows the sign of the mantissa.
    pub(crate) fn float_condition(&mut self, value: Float) {
        self.state.set_condition(sign_condition(value.mantissa.signum() as i64));
    }

    /// Stores a float in two or three registers and sets CS from it.
    pub(crate) fn float_result(&mut self, number: usize, value: Float, width: Width) {
        for (distance, word) in value.pack(width)[..width.words].iter().enumerate() {
            self.set_register(number + distance, *word);
        }
        self.float_condition(value);
    }

    /// Stores a result and sets its bits in PI.
    fn float_outcome(&mut self, number: usize, outcome: Outcome, width: Width) {
        self.state.pi |= outcome.pending;
        self.float_result(number, outcome.value, width);
    }

    /// The accumulator with an operand.
    pub(crate) fn float_operation(
        &mut self,
        a: usize,
        operand: Float,
        width: Width,
        operation: Operation,
    ) {
        let outcome = operation(self.float_register(a, width), operand, width);
        self.float_outcome(a, outcome, width);
    }

    /// D, DX: the operand at the direct address.
    pub(crate) fn float_direct(&mut self, word: u16, width: Width, operation: Operation) -> Done {
        let address = self.direct(word)?;
        let operand = self.float_at(address, width)?;
        self.float_operation(fields(word).0, operand, width, operation);
        Ok(())
    }

    /// R: the operand in registers.
    pub(crate) fn float_registers(&mut self, word: u16, width: Width, operation: Operation) {
        let (a, b) = fields(word);
        self.float_operation(a, self.float_register(b, width), width, operation);
    }

    /// 5.62, 5.70: RA and RA+1 from RB and RB+1.
    pub(crate) fn float_of_register(&mut self, word: u16, operation: fn(Float, Width) -> Outcome) {
        let (a, b) = fields(word);
        let outcome = operation(self.float_register(b, SINGLE), SINGLE);
        self.float_outcome(a, outcome, SINGLE);
    }

    /// 5.94, 5.95: CS from the accumulator against the operand.
    pub(crate) fn float_compare(&mut self, a: usize, operand: Float, width: Width) {
        self.order_condition(compared(self.float_register(a, width), operand));
    }

    /// 5.94, 5.95: the operand at the direct address.
    pub(crate) fn float_compare_direct(&mut self, word: u16, width: Width) -> Done {
        let address = self.direct(word)?;
        let operand = self.float_at(address, width)?;
        self.float_compare(fields(word).0, operand, width);
        Ok(())
    }
}
