//! 5.1 XIO: the input/output commands.

use crate::address::fields;
use crate::machine::{Done, Fault, Machine};
use crate::state::MACHINE_ERROR;

impl Machine<'_> {
    /// 5.1 XIO: privileged; the command is the immediate operand plus the index.
    pub(crate) fn input_output(&mut self, word: u16) -> Done {
        self.privileged()?;
        let command = self.direct(word)?;
        let (a, _) = fields(word);
        match command >> 8 {
            0x00..=0x03 => self.ports[usize::from(command & 0x3FF)] = self.register(a), // PO
            0x80..=0x83 => self.set_register(a, self.ports[usize::from(command & 0x3FF)]), // PI
            0x51 => self.pages[usize::from(command & 0xFF)] = self.register(a),         // WIPR
            0x52 => self.pages[256 + usize::from(command & 0xFF)] = self.register(a),   // WOPR
            0xD1 => self.set_register(a, self.pages[usize::from(command & 0xFF)]),      // RIPR
            0xD2 => self.set_register(a, self.pages[256 + usize::from(command & 0xFF)]), // ROPR
            0x20 => return self.control_output(command, self.register(a)),
            0xA0 => return self.control_input(command, a),
            0x40 => return self.timer_output(command, self.register(a)),
            0xC0 => return self.timer_input(command, a),
            _ => return Err(Fault::COMMAND),
        }
        Ok(())
    }

    /// Refuses a privileged instruction with PS other than 0.
    pub(crate) fn privileged(&self) -> Done {
        if self.state.key() == 0 {
            Ok(())
        } else {
            Err(Fault::PRIVILEGED)
        }
    }

    /// 5.1: commands that write the processor's own registers.
    fn control_output(&mut self, command: u16, value: u16) -> Done {
        let state = &mut *self.state;
        match command {
            0x2000 => state.mk = value,                            // SMK
            0x2001 => (state.pi, state.ft, state.mfs) = (0, 0, 0), // CLIR
            0x2002 => (state.enabled, state.hold) = (true, true),  // ENBL
            0x2003 => state.enabled = false,                       // DSBL
            0x2004 => self.reset_pending(value & 0xF),             // RPI
            0x2005 => (state.pi, state.hold) = (value, true),      // SPI
            0x200E => state.sw = value,                            // WSW
            _ => return Err(Fault::COMMAND),
        }
        Ok(())
    }

    /// 5.1 RPI: clears one pending interrupt, with interrupt 1 the faults too.
    fn reset_pending(&mut self, number: u16) {
        self.state.pi &= !(0x8000 >> number);
        if number == 1 {
            self.state.ft = 0;
        }
    }

    /// 5.1: commands that read the processor's own registers.
    fn control_input(&mut self, command: u16, a: usize) -> Done {
        let value = match command {
            0xA000 => self.state.mk,       // RMK
            0xA004 => self.state.pi,       // RPIR
            0xA00D => self.state.mfs,      // RMFS
            0xA00E => self.state.sw,       // RSW
            0xA00F => self.clear_faults(), // RCFR
            _ => return Err(Fault::COMMAND),
        };
        self.set_register(a, value);
        Ok(())
    }

    /// 5.1 RCFR: gives the faults, clears them and the machine error interrupt.
    fn clear_faults(&mut self) -> u16 {
        self.state.pi &= !MACHINE_ERROR;
        std::mem::take(&mut self.state.ft)
    }

    /// 5.1: commands that start, halt and load the timers. Starting and halting keep the remainder.
    fn timer_output(&mut self, command: u16, value: u16) -> Done {
        let state = &mut *self.state;
        match command {
            0x4008 => state.timer_a_running = true,  // TAS
            0x4009 => state.timer_a_running = false, // TAH
            0x400A => state.load_timer_a(value),     // OTA
            0x400C => state.timer_b_running = true,  // TBS
            0x400D => state.timer_b_running = false, // TBH
            0x400E => state.load_timer_b(value),     // OTB
            _ => return Err(Fault::COMMAND),
        }
        Ok(())
    }

    /// 5.1: commands that read the timers.
    fn timer_input(&mut self, command: u16, a: usize) -> Done {
        let value = match command {
            0xC00A => self.state.timer_a, // ITA
            0xC00E => self.state.timer_b, // ITB
            _ => return Err(Fault::COMMAND),
        };
        self.set_register(a, value);
        Ok(())
    }
}
