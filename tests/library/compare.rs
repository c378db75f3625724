//! Runs the calls of a case on the library and on the reference, and compares all that they leave.

use crate::cases::{Call, Case};
use crate::watch::{self, Seen};
use host::functions::{Functions, LIBRARY, REFERENCE};
use host::guarded::Lend;
use support::counts::Counts;

/// What a host keeps between calls.
#[derive(Clone)]
pub struct Kept {
    pub controller: Vec<u8>,
    pub memory: Vec<u8>,
}

/// All that is lent to calls: the bytes are those of a record, the buffer is for its answers or for the dots of a row.
struct Lent<'a> {
    controller: &'a mut [u8],
    memory: &'a mut [u8],
    font: &'a [u8],
    bytes: &'a [u8],
    buffer: &'a mut [u8],
}

fn answer(functions: &Functions, call: &Call, lent: Lent) -> u32 {
    let Lent { controller, memory, font, bytes, buffer } = lent;
    match call {
        Call::Reset => (functions.reset)(controller),
        Call::CommandWrite(byte) => (functions.command_write)(controller, *byte),
        Call::DataWrite(byte) => (functions.data_write)(controller, memory, *byte),
        Call::DataRead => (functions.data_read)(controller, memory),
        Call::Send { .. } => (functions.send)(controller, memory, bytes, buffer),
        Call::Row(row) => (functions.row)(controller, memory, font, row.frame, row.row, buffer),
        Call::FrameSize => (functions.frame_size)(controller),
    }
}

/// Compares after each call: the answer with the value read, every byte of the controller, the memory, the font, the record
/// that was sent and the buffer, and the bytes beside each of them.
pub fn compare(case: &Case, lend: Lend, counts: &mut Counts) -> Result<(), String> {
    let mut kept = Kept { controller: case.controller.clone(), memory: case.memory.clone() };
    let mut controller = lend(&case.controller);
    let mut memory = lend(&case.memory);
    let font = lend(&case.font);
    for (index, call) in case.calls.iter().enumerate() {
        let (bytes, length) = match call {
            Call::Send { bytes, answers } => (&bytes[..], *answers),
            Call::Row(row) => (&[][..], row.length),
            _ => (&[][..], 0),
        };
        let mut left: Vec<u8> = (0..length).map(|place| 0xC3 ^ place as u8).collect();
        let (record, mut buffer) = (lend(bytes), lend(&left));
        let lent = Lent {
            controller: controller.lent(),
            memory: memory.lent(),
            font: font.content(),
            bytes: record.content(),
            buffer: buffer.lent(),
        };
        let answered = answer(&LIBRARY, call, lent);
        let before = kept.clone();
        let lent = Lent { controller: &mut kept.controller, memory: &mut kept.memory, font: &case.font, bytes, buffer: &mut left };
        let expected = answer(&REFERENCE, call, lent);
        let equal = || {
            if answered != expected {
                return Err(format!("the answer: reference {}, library {}", expected, answered));
            }
            controller.difference("controller", &kept.controller)?;
            memory.difference("memory", &kept.memory)?;
            font.difference("font", &case.font)?;
            record.difference("record", bytes)?;
            buffer.difference("buffer", &left)
        };
        equal().map_err(|difference| format!("call {}, {}: {}", index + 1, call, difference))?;
        let seen = Seen { before: &before, font: &case.font, answer: expected, buffer: &left, after: &kept };
        watch::call(call, &seen, counts);
    }
    Ok(())
}
