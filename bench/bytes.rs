//! Data bytes into memory, in records and a call each, beside a copy of the same bytes.

use crate::timing::{nanoseconds, unknown};
use host::functions::{Functions, LIBRARY, REFERENCE};
use host::saved;
use reference::commands::MWRITE;
use reference::model::{Controller, NONE};
use reference::refusals::MEMORY_SIZE;
use reference::registers::{Direction, Registers};
use support::random::Random;

/// Data writes: how many, which way the cursor moves, and from where. They never leave memory.
pub struct Record {
    pub name: &'static str,
    pub length: usize,
    pub direction: Direction,
    pub start: u16,
    /// Whether each byte is a call of `granivolche_data_write`, or all are one of `granivolche_send`.
    pub single: bool,
}

/// Up and down by this.
const PITCH: u16 = 16;

pub fn records() -> Vec<Record> {
    let record = |name, length, direction, start, single| Record { name, length, direction, start, single };
    vec![
        record("a data byte by granivolche_send, records of 2,000, right", 2_000, Direction::Right, 0, false),
        record("a data byte by granivolche_send, records of 32,768, right", 32_768, Direction::Right, 0, false),
        record("a data byte by granivolche_send, records of 2,000, left", 2_000, Direction::Left, 1_999, false),
        record("a data byte by granivolche_send, records of 2,000, up", 2_000, Direction::Up, 1_999 * PITCH, false),
        record("a data byte by granivolche_send, records of 2,000, down", 2_000, Direction::Down, 0, false),
        record("a data byte by granivolche_data_write, a call each, right", 2_000, Direction::Right, 0, true),
    ]
}

impl Record {
    /// A controller that waits for the bytes, or for the record.
    fn controller(&self) -> Controller {
        let registers = Registers { ap: PITCH, cursor: self.start, direction: self.direction, ..Registers::reset() };
        Controller { registers, pending: if self.single { MWRITE } else { NONE }, place: 0 }
    }

    /// So many bytes, behind MWRITE where they are a record.
    fn bytes(&self) -> Vec<u8> {
        let mut bytes = if self.single { vec![] } else { vec![MWRITE] };
        bytes.extend(Random::new(2).bytes(self.length as u32));
        bytes
    }

    /// 0 where nothing is refused, and an answer for each byte.
    fn write(&self, functions: &Functions, controller: &mut [u8], memory: &mut [u8], bytes: &[u8], answers: &mut [u8]) -> u32 {
        if !self.single {
            return (functions.send)(controller, memory, bytes, answers);
        }
        let mut refused = 0;
        for (byte, answer) in bytes.iter().zip(answers) {
            let number = (functions.data_write)(controller, memory, *byte);
            *answer = number as u8;
            refused |= number;
        }
        refused
    }
}

/// Times in nanoseconds a byte.
pub struct Times {
    pub ours: f64,
    pub copy: f64,
}

/// Bytes in a round at least: few, so that a sample is too short to be cut in two by other work.
const BYTES: usize = 10_000;

pub fn measure(record: &Record) -> Times {
    let repeats = (BYTES + record.length - 1) / record.length;
    let (bytes, start) = (record.bytes(), saved::write(&record.controller()));
    let mut memory = vec![0; MEMORY_SIZE];
    let mut answers = vec![0; bytes.len()];
    let ours = nanoseconds(|| {
        for _ in 0..repeats {
            let mut controller = start.clone();
            record.write(&LIBRARY, &mut controller, unknown(&mut memory), unknown(&bytes), &mut answers);
            unknown((controller, &mut answers));
        }
    });
    let data = &bytes[bytes.len() - record.length..];
    let copy = nanoseconds(|| {
        for _ in 0..repeats {
            memory[..record.length].copy_from_slice(unknown(data));
            unknown(&mut memory);
        }
    });
    let all = (repeats * record.length) as f64;
    Times { ours: ours / all, copy: copy / all }
}

/// Whether the library leaves the controller, the memory and the answers that the reference leaves, refuses nothing, and
/// moves to the right as a copy does.
pub fn agree(record: &Record) -> bool {
    let bytes = record.bytes();
    let left_by = |functions: &Functions| {
        let (mut controller, mut memory) = (saved::write(&record.controller()), vec![0; MEMORY_SIZE]);
        // No byte has this answer.
        let mut answers = vec![0xEE; bytes.len()];
        let refused = record.write(functions, &mut controller, &mut memory, &bytes, &mut answers);
        (refused, controller, memory, answers)
    };
    let ours = left_by(&LIBRARY);
    let copied = record.direction != Direction::Right || bytes.ends_with(&ours.2[..record.length]);
    ours.0 == 0 && copied && ours == left_by(&REFERENCE)
}
