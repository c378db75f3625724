//! What only a caller can hand in: fields outside their layout, any pending command and place, bytes outside the saved form,
//! any row number, and memory, font and row buffer of any length.

use crate::saved;
use reference::commands::{parameter_allowed, parameter_count, CODES, CSRR, MREAD, MWRITE, SYSTEM_SET};
use reference::registers::Registers;
use support::random::Random;

pub const WRONG_MEMORIES: [usize; 5] = [0, 1, 32_767, 32_769, 65_536];
pub const WRONG_FONTS: [usize; 4] = [0, 1, 1_279, 1_281];

/// The fields of a byte that are narrower than it, by their place in the saved form, and the first value outside.
pub const LIMITED: [(usize, u8); 9] = [
    (FX, 16), (FY, 16), (FP, 64), (FC, 4), (CRX, 16), (CRY, 16), (MX, 4), (HDOT, 8), (GREY, 3),
];
pub const IV: usize = 4;
pub const WF: usize = 8;
pub const FX: usize = 9;
pub const FY: usize = 10;
pub const D: usize = 16;
pub const FP: usize = 17;
pub const FC: usize = 18;
pub const CRX: usize = 29;
pub const CRY: usize = 31;
pub const MX: usize = 35;
pub const HDOT: usize = 38;
pub const GREY: usize = 39;
const ASLEEP: usize = 1;
const CURSOR: usize = 40;

/// Puts a field or two outside their layout; what reads as 0 then is mostly kept from refusing the row.
pub fn fields(controller: &mut [u8], random: &mut Random) {
    for _ in 0..random.pick(&[0, 1, 1, 1, 1, 1, 1, 2, 2, 9]) {
        let (place, end) = random.pick(&LIMITED);
        controller[place] = random.between(u32::from(end), 255) as u8;
        match place {
            GREY if random.chance(40) => controller[GREY] = 3,
            FX if random.chance(80) => {
                controller[HDOT] = 0;
                controller[CRX] = 0;
                controller[GREY] = 0;
            }
            CRY if random.chance(50) => controller[FC] = 0,
            _ => {}
        }
    }
}

/// Any pending command and place, sometimes asleep, the display on or off, with the cursor near an edge.
pub fn pending(controller: &mut [u8], random: &mut Random) {
    let command = match random.below(10) {
        0 => random.byte(),
        1..=3 => random.pick(&[MWRITE, MREAD, CSRR]),
        _ => random.pick(&CODES),
    };
    let place = match random.below(10) {
        0 => random.byte(),
        1 => random.below(12) as u8,
        2 => 255,
        _ => random.below(u32::from(parameter_count(command)) + 2) as u8,
    };
    controller[saved::PENDING..=saved::PLACE].copy_from_slice(&[command, place]);
    controller[ASLEEP] = u8::from(random.chance(30));
    controller[D] = u8::from(random.chance(60));
    let anywhere = random.word();
    let cursor = random.pick(&[0x0000, 0x0001, 0x7FFF, 0x8000, 0xFFFF, anywhere]);
    controller[CURSOR..CURSOR + 2].copy_from_slice(&cursor.to_le_bytes());
    controller[saved::DIRECTION] = if random.chance(95) { random.below(4) } else { random.between(4, 255) } as u8;
}

/// A command that waits for one of its parameters, and a value for it.
pub fn parameter(controller: &mut [u8], random: &mut Random) -> u8 {
    let places: Vec<(u8, u8)> = CODES.iter().flat_map(|code| (0..parameter_count(*code)).map(|place| (*code, place))).collect();
    // Asleep it is P1 of SYSTEM SET that wakes.
    let wakes = controller[ASLEEP] == 1 && random.chance(30);
    let (command, place) = if wakes { (SYSTEM_SET, 0) } else { random.pick(&places) };
    controller[saved::PENDING..=saved::PLACE].copy_from_slice(&[command, place]);
    value(command, place, random)
}

/// A value for a place of a command's list, mostly an allowed one.
pub fn value(command: u8, place: u8, random: &mut Random) -> u8 {
    let allowed: Vec<u8> = (0..=255).filter(|value| parameter_allowed(command, place, *value)).collect();
    if random.chance(80) {
        random.pick(&allowed)
    } else {
        random.byte()
    }
}

/// Puts a flag above 1, mostly one that is 1: as it is read as 0, that says something else.
pub fn flag(controller: &mut [u8], random: &mut Random) {
    let ones: Vec<usize> = saved::FLAGS.into_iter().filter(|flag| controller[*flag] == 1).collect();
    let any = ones.is_empty() || random.chance(40);
    let flag = random.pick(if any { &saved::FLAGS } else { &ones });
    controller[flag] = random.between(2, 255) as u8;
}

/// Bytes outside the saved form, and bytes that are no saved controller.
pub fn form(controller: &mut Vec<u8>, random: &mut Random) {
    match random.below(6) {
        0 | 1 => flag(controller, random),
        2 => controller[saved::DIRECTION] = random.between(4, 255) as u8,
        3 => controller[random.between(saved::RESERVED.start as u32, saved::RESERVED.end as u32 - 1) as usize] = random.byte(),
        4 => controller[0] = random.pick(&[0, 2, 255]),
        _ => controller.resize(random.pick(&[0, 1, 47, 49, 96]), 0),
    }
}

/// What a row is asked with.
pub struct Row {
    pub frame: u32,
    pub row: u32,
    /// Of the buffer.
    pub length: usize,
}

/// Mostly a row of the frame and a buffer of its width.
pub fn row(controller: &[u8], random: &mut Random) -> Row {
    let registers = saved::read(controller).map_or(Registers::reset(), |controller| controller.registers.in_layout());
    let rows = registers.rows();
    let row = match random.below(18) {
        0 => rows,
        1 => rows - 1,
        2 => u32::MAX,
        3 => random.between(1, 255) * 256 + random.below(rows),
        4 => random.between(1, 65_535) * 65_536 + random.below(rows),
        5 => random.next() as u32,
        _ => random.below(rows),
    };
    let width = registers.width() as usize;
    let length = match random.below(18) {
        // One column, scrolled, has no dots.
        0 => width.saturating_sub(1),
        1 => width + 1,
        2 => 0,
        3 => random.below(700) as usize,
        4 => registers.unscrolled_width() as usize,
        _ => width,
    };
    let frame = if random.chance(50) { 0 } else { random.next() as u32 };
    Row { frame, row, length }
}
