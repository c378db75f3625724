//! Calls on the bus (01, 'Reset, commands and parameters').

use reference::commands::*;
use reference::model::{Controller, NONE};
use reference::refusals::MEMORY_SIZE;
use reference::registers::Direction;
use support::counts::Counts;

/// Knows by which code the pending command began: the controller itself knows only its row of the table.
#[derive(Default)]
pub struct BusWatch {
    code: u8,
}

impl BusWatch {
    pub fn command_write(&mut self, before: &Controller, code: u8, answer: Result<(), u8>, counts: &mut Counts) {
        match answer {
            Err(2) if before.registers.asleep => counts.hit("asleep: an unknown code gets 2", &[]),
            Err(5) => counts.hit("asleep: command $ gets 5", &[code]),
            Err(_) => {}
            Ok(()) => {
                counts.hit("command $ accepted", &[code]);
                if before.place > 0 && before.place < list_length(before.pending) {
                    counts.hit("list of $ cut short by another command", &[before.pending]);
                }
                self.code = code;
            }
        }
    }

    pub fn data_write(&self, before: &Controller, value: u8, answer: Result<(), u8>, counts: &mut Counts) {
        match answer {
            Err(3) => {
                if before.registers.asleep {
                    counts.hit("asleep: data gets 3", &[]);
                }
                match before.pending {
                    NONE => counts.hit("data with no command pending gets 3", &[]),
                    _ => counts.hit("data past the list of $ gets 3", &[self.code]),
                }
            }
            Err(4) => bad_parameter(before.pending, before.place, value, counts),
            _ if before.pending == MWRITE => {
                cursor_moved(before, counts);
                match usize::from(before.registers.cursor) {
                    MEMORY_SIZE.. => counts.hit("memory write at 8000h or above gets 7", &[]),
                    address if address == MEMORY_SIZE - 1 => counts.hit("memory write at 7FFFh", &[]),
                    _ => {}
                }
            }
            _ => {}
        }
    }

    pub fn data_read(&self, before: &Controller, answer: Result<u8, u8>, counts: &mut Counts) {
        match answer {
            Err(6) if before.registers.asleep => counts.hit("asleep: a read gets 6", &[]),
            Err(6) if before.pending == NONE => counts.hit("read with no command pending gets 6", &[]),
            Err(6) => counts.hit("read with $ pending gets 6", &[self.code]),
            _ if before.pending == CSRR => counts.hit("CSRR read #", &[before.place + 1]),
            Err(_) => {
                cursor_moved(before, counts);
                counts.hit("memory read at 8000h or above gets 7", &[]);
            }
            Ok(value) => {
                cursor_moved(before, counts);
                if value != 0 {
                    counts.hit("memory read of a byte that isn't 0", &[]);
                }
            }
        }
    }
}

/// Data writes or reads that a command other than MWRITE and MREAD takes.
fn list_length(command: u8) -> u8 {
    if command == CSRR {
        2
    } else {
        parameter_count(command)
    }
}

fn cursor_moved(before: &Controller, counts: &mut Counts) {
    let r = &before.registers;
    let step = match r.direction {
        Direction::Right => 1,
        Direction::Left => -1,
        Direction::Up => -i32::from(r.ap),
        Direction::Down => i32::from(r.ap),
    };
    let code = CSRDIR_RIGHT + r.direction as u8;
    counts.hit("cursor moved by direction $", &[code]);
    if !(0..65_536).contains(&(i32::from(r.cursor) + step)) {
        counts.hit("cursor wrapped by direction $", &[code]);
    }
}

/// Counts refusal 4 by the one bit that is wrong, or by the value where a single bit isn't to blame.
fn bad_parameter(command: u8, place: u8, value: u8, counts: &mut Counts) {
    let culprits: Vec<u8> = (0..8).filter(|bit| parameter_allowed(command, place, value ^ 1 << bit)).collect();
    match culprits.len() {
        0 => counts.hit("parameter # of $ gets 4 for several bits", &[place + 1, command]),
        1 => counts.hit("parameter # of $ gets 4 for bit #", &[place + 1, command, culprits[0]]),
        _ => counts.hit("parameter # of $ gets 4 for its value", &[place + 1, command]),
    }
}
