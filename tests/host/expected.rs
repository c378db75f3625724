//! What the library's functions are to do, worked out by the reference: a saved controller is read, called, and written back.

use crate::calls::{NOTHING_SENT, NO_CONTROLLER};
use crate::saved;
use reference::model::Controller;

fn number(answer: Result<(), u8>) -> u32 {
    answer.err().map_or(0, u32::from)
}

/// A call on the controller that bytes are; `none` where they are none, and then they stand.
fn change(bytes: &mut [u8], none: u32, call: impl FnOnce(&mut Controller) -> u32) -> u32 {
    saved::read(bytes).map_or(none, |mut controller| {
        let answer = call(&mut controller);
        bytes.copy_from_slice(&saved::write(&controller));
        answer
    })
}

pub fn reset(controller: &mut [u8]) -> u32 {
    // Any former content will do.
    if controller.len() != saved::LENGTH {
        return NO_CONTROLLER;
    }
    controller.copy_from_slice(&saved::write(&Controller::reset()));
    0
}

pub fn command_write(controller: &mut [u8], byte: u8) -> u32 {
    change(controller, NO_CONTROLLER, |controller| number(controller.command_write(byte)))
}

pub fn data_write(controller: &mut [u8], memory: &mut [u8], byte: u8) -> u32 {
    change(controller, NO_CONTROLLER, |controller| number(controller.data_write(memory, byte)))
}

pub fn data_read(controller: &mut [u8], memory: &[u8]) -> u32 {
    change(controller, NO_CONTROLLER, |controller| match controller.data_read(memory) {
        Ok(value) => 256 * u32::from(value),
        Err(refusal) => u32::from(refusal),
    })
}

pub fn send(controller: &mut [u8], memory: &mut [u8], bytes: &[u8], answers: &mut [u8]) -> u32 {
    if bytes.is_empty() || bytes.len() >= NOTHING_SENT as usize || answers.len() != bytes.len() {
        return NOTHING_SENT;
    }
    change(controller, NOTHING_SENT, |controller| {
        for (index, (byte, answer)) in bytes.iter().zip(answers.iter_mut()).enumerate() {
            let outcome = if index == 0 { controller.command_write(*byte) } else { controller.data_write(memory, *byte) };
            *answer = outcome.err().unwrap_or(0);
        }
        answers.iter().filter(|answer| **answer != 0).count() as u32
    })
}

pub fn row(controller: &[u8], memory: &[u8], font: &[u8], frame: u32, row: u32, dots: &mut [u8]) -> u32 {
    saved::read(controller).map_or(NO_CONTROLLER, |controller| number(controller.row(memory, font, frame, row, dots)))
}

pub fn frame_size(controller: &[u8]) -> u32 {
    saved::read(controller).map_or(0, |controller| {
        let (width, rows) = controller.frame_size();
        width + 65_536 * rows
    })
}
