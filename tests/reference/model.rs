//! The controller on its bus: command writes, data writes, data reads (01, 'Reset, commands and parameters'), and rows.
//! An error is the number of a refusal.

use super::commands::*;
use super::parameters;
use super::refusals::{self, RowRequest, MEMORY_SIZE};
use super::registers::{Direction, Registers};
use super::row::Picture;

/// Stands for no command where one may be pending.
pub const NONE: u8 = 0;

#[derive(Clone, Copy, PartialEq, Debug)]
pub struct Controller {
    pub registers: Registers,
    /// The pending command, by its first code, or NONE.
    pub pending: u8,
    /// How much of its list has been taken.
    pub place: u8,
}

impl Controller {
    pub fn reset() -> Controller {
        Controller { registers: Registers::reset(), pending: NONE, place: 0 }
    }

    fn end_pending(&mut self) {
        self.pending = NONE;
        self.place = 0;
    }

    pub fn command_write(&mut self, code: u8) -> Result<(), u8> {
        // Accepted or refused, the byte ends what was pending.
        self.end_pending();
        let command = command_of(code).ok_or(2)?;
        let r = &mut self.registers;
        if r.asleep && code != SYSTEM_SET {
            return Err(5);
        }
        // The manual wants the display on before sleep (#102).
        if code == SLEEP_IN && !r.d {
            return Err(19);
        }
        self.pending = command;
        match code {
            SLEEP_IN => r.asleep = true,
            DISP_OFF => r.d = false,
            DISP_ON => r.d = true,
            CSRDIR_RIGHT => r.direction = Direction::Right,
            CSRDIR_LEFT => r.direction = Direction::Left,
            CSRDIR_UP => r.direction = Direction::Up,
            CSRDIR_DOWN => r.direction = Direction::Down,
            _ => {}
        }
        Ok(())
    }

    pub fn data_write(&mut self, memory: &mut [u8], value: u8) -> Result<(), u8> {
        if memory.len() != MEMORY_SIZE {
            return Err(1);
        }
        if !self.wants_data() {
            return Err(3);
        }
        if self.pending == MWRITE {
            return self.memory_write(memory, value);
        }
        if !parameter_allowed(self.pending, self.place, value) {
            self.end_pending();
            return Err(4);
        }
        parameters::store(&mut self.registers, self.pending, self.place, value);
        // Waking leaves the display off, until DISP ON is sent (#102).
        if self.pending == SYSTEM_SET && self.place == 0 && self.registers.asleep {
            self.registers.asleep = false;
            self.registers.d = false;
        }
        self.place += 1;
        Ok(())
    }

    /// Whether a parameter or memory byte is wanted. Asleep, only SYSTEM SET wants any.
    pub fn wants_data(&self) -> bool {
        let asleep_bars = self.registers.asleep && self.pending != SYSTEM_SET;
        !asleep_bars && (self.pending == MWRITE || self.place < parameter_count(self.pending))
    }

    fn memory_write(&mut self, memory: &mut [u8], value: u8) -> Result<(), u8> {
        let address = usize::from(self.registers.cursor);
        self.registers.cursor = next_cursor(&self.registers);
        if address >= MEMORY_SIZE {
            return Err(7);
        }
        memory[address] = value;
        Ok(())
    }

    /// The value read; a refused read gives the value 0.
    pub fn data_read(&mut self, memory: &[u8]) -> Result<u8, u8> {
        if memory.len() != MEMORY_SIZE {
            return Err(1);
        }
        match self.pending {
            _ if self.registers.asleep => Err(6),
            MREAD => self.memory_read(memory),
            CSRR if self.place < 2 => {
                let value = self.registers.cursor.to_le_bytes()[usize::from(self.place)];
                self.place += 1;
                Ok(value)
            }
            _ => Err(6),
        }
    }

    fn memory_read(&mut self, memory: &[u8]) -> Result<u8, u8> {
        let address = usize::from(self.registers.cursor);
        self.registers.cursor = next_cursor(&self.registers);
        if address >= MEMORY_SIZE {
            return Err(7);
        }
        Ok(memory[address])
    }

    /// Fills a lent buffer with the dots of a row, a byte a dot; the buffer of a refused row stands.
    pub fn row(&self, memory: &[u8], font: &[u8], frame: u32, row: u32, dots: &mut [u8]) -> Result<(), u8> {
        let registers = self.registers.in_layout();
        let request = RowRequest { memory: memory.len(), font: font.len(), row, buffer: dots.len() };
        refusals::of_row(&registers, &request)?;
        let picture = Picture { registers: &registers, memory, font, frame };
        for (x, dot) in (0..).zip(dots) {
            *dot = picture.dot(x, row);
        }
        Ok(())
    }

    /// Width and rows of a frame.
    pub fn frame_size(&self) -> (u32, u32) {
        let registers = self.registers.in_layout();
        (registers.width(), registers.rows())
    }
}

/// Where a memory write or read leaves the cursor.
fn next_cursor(r: &Registers) -> u16 {
    let cursor = r.cursor;
    match r.direction {
        Direction::Right => cursor.wrapping_add(1),
        Direction::Left => cursor.wrapping_sub(1),
        Direction::Up => cursor.wrapping_sub(r.ap),
        Direction::Down => cursor.wrapping_add(r.ap),
    }
}
