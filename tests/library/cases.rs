//! A case from a seed: a controller, memory and font that a caller hands in, and calls on them.

use host::handed_in::{self, WRONG_FONTS, WRONG_MEMORIES};
use host::saved;
use reference::commands::{parameter_count, CODES, MWRITE, SLEEP_IN, SYSTEM_SET};
use reference::refusals::{FONT_SIZE, MEMORY_SIZE};
use std::fmt;
use support::limits;
use support::random::Random;
use support::setup::Setup;

pub enum Call {
    Reset,
    CommandWrite(u8),
    DataWrite(u8),
    DataRead,
    /// A record, and the length of the buffer for the answers.
    Send { bytes: Vec<u8>, answers: usize },
    Row(handed_in::Row),
    FrameSize,
}

impl Call {
    /// The place of its function in the header, from 1.
    pub fn function(&self) -> u8 {
        match self {
            Call::Reset => 1,
            Call::CommandWrite(_) => 2,
            Call::DataWrite(_) => 3,
            Call::DataRead => 4,
            Call::Send { .. } => 5,
            Call::Row(_) => 6,
            Call::FrameSize => 7,
        }
    }
}

impl fmt::Display for Call {
    fn fmt(&self, f: &mut fmt::Formatter) -> fmt::Result {
        match self {
            Call::Reset => write!(f, "reset"),
            Call::CommandWrite(byte) => write!(f, "command write {:02X}", byte),
            Call::DataWrite(byte) => write!(f, "data write {:02X}", byte),
            Call::DataRead => write!(f, "data read"),
            Call::Send { bytes, answers } => write!(f, "send of {:02X?} with {} answers", bytes, answers),
            Call::Row(row) => write!(f, "row {} of frame {} into {} bytes", row.row, row.frame, row.length),
            Call::FrameSize => write!(f, "frame size"),
        }
    }
}

pub struct Case {
    pub controller: Vec<u8>,
    pub memory: Vec<u8>,
    pub font: Vec<u8>,
    pub calls: Vec<Call>,
}

pub fn generate(seed: u64) -> Case {
    let mut random = Random::new(seed);
    let mut setup = Setup::choose(&mut random);
    match random.below(10) {
        0 | 1 => limits::exceed(&mut setup, &mut random),
        2 => limits::heighten(&mut setup, &mut random),
        _ => {}
    }
    let mut machine = setup.machine(&mut random);
    // Reads at the edges of memory are to find something.
    machine.memory[..4].copy_from_slice(&random.bytes(4));
    machine.memory[MEMORY_SIZE - 4..].copy_from_slice(&random.bytes(4));
    let mut controller = saved::write(&machine.controller);
    let rows = random.chance(60);
    if rows || random.chance(80) {
        handed_in::fields(&mut controller, &mut random);
    }
    if rows && random.chance(20) {
        handed_in::flag(&mut controller, &mut random);
    }
    let mut calls = vec![];
    if !rows {
        handed_in::pending(&mut controller, &mut random);
        if random.chance(50) {
            let value = handed_in::parameter(&mut controller, &mut random);
            // SLEEP IN between, accepted or refused, ends what waits for the value (#102).
            if random.chance(25) {
                calls.push(Call::CommandWrite(SLEEP_IN));
            }
            calls.push(Call::DataWrite(value));
        }
    }
    if random.chance(15) {
        handed_in::form(&mut controller, &mut random);
    }
    for _ in 0..random.between(1, 5) {
        calls.push(match random.below(10) {
            0 if rows => Call::FrameSize,
            _ if rows => Call::Row(handed_in::row(&controller, &mut random)),
            _ => call(&controller, &mut random),
        });
    }
    Case {
        calls,
        memory: resized(machine.memory, MEMORY_SIZE, &WRONG_MEMORIES, &mut random),
        font: resized(random.bytes(FONT_SIZE as u32), FONT_SIZE, &WRONG_FONTS, &mut random),
        controller,
    }
}

fn resized(mut bytes: Vec<u8>, size: usize, wrong: &[usize], random: &mut Random) -> Vec<u8> {
    bytes.resize(if random.chance(93) { size } else { random.pick(wrong) }, 0x55);
    bytes
}

fn call(controller: &[u8], random: &mut Random) -> Call {
    match random.below(24) {
        0 => Call::Reset,
        1 | 2 => Call::CommandWrite(if random.chance(80) { random.pick(&CODES) } else { random.byte() }),
        3..=6 => Call::DataRead,
        7..=9 => send(random),
        10 => Call::CommandWrite(MWRITE),
        11 | 12 => Call::Row(handed_in::row(controller, random)),
        13 => Call::CommandWrite(random.pick(&[SLEEP_IN, SYSTEM_SET])),
        14 => Call::FrameSize,
        _ => Call::DataWrite(if random.chance(60) { random.pick(&[0x00, 0x01, 0x02, 0x07, 0x10, 0x1F, 0x3D]) } else { random.byte() }),
    }
}

/// A command and data for it, now and then more than it wants. Seldom there are no bytes, or more or fewer answers than bytes.
fn send(random: &mut Random) -> Call {
    if random.chance(4) {
        return Call::Send { bytes: vec![], answers: random.below(2) as usize };
    }
    let command = match random.below(10) {
        0 => random.byte(),
        1..=4 => MWRITE,
        _ => random.pick(&CODES),
    };
    let wanted = u32::from(parameter_count(command));
    let data = match random.below(3) {
        _ if command == MWRITE => random.below(60),
        0 => wanted,
        1 => wanted + random.between(1, 2),
        _ => random.below(wanted + 1),
    };
    let mut bytes = vec![command];
    bytes.extend((0..data as u8).map(|place| handed_in::value(command, place, random)));
    let answers = match random.below(25) {
        0 => bytes.len() - 1,
        1 => bytes.len() + 1,
        2 => 0,
        _ => bytes.len(),
    };
    Call::Send { bytes, answers }
}
