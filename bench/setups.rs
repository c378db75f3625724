//! The set-ups that are measured: a controller, the memory and the font that it shows.

use reference::model::{Controller, NONE};
use reference::refusals::{FONT_SIZE, MEMORY_SIZE};
use reference::registers::Registers;
use std::ops::RangeInclusive;
use support::random::Random;

pub struct Setup {
    pub name: String,
    /// Where it is scrolled: the place in `setups` of the one that isn't, of the same width.
    pub unscrolled: Option<usize>,
    pub controller: Controller,
    pub memory: Vec<u8>,
    pub font: Vec<u8>,
}

impl Setup {
    pub fn size(&self) -> (usize, u32) {
        let (width, rows) = self.controller.frame_size();
        (width as usize, rows)
    }
}

/// Where text stands in every set-up that has some.
const TEXT: RangeInclusive<usize> = 0x0000..=0x0FFF;

/// [FX], [C/R] and [L/F]; all blocks lit, and rows of memory next to each other.
fn registers(fx: u8, columns: u8, rows: u8) -> Registers {
    Registers {
        fx: fx - 1,
        fy: 7,
        cr: columns - 1,
        tcr: columns + 3,
        lf: rows - 1,
        ap: u16::from(columns),
        d: true,
        fp: 0b01_01_01,
        sl1: rows - 1,
        sl2: rows - 1,
        ..Registers::reset()
    }
}

/// Text in block 1 over graphics in block 2, with a steady cursor.
fn text(fx: u8, columns: u8, rows: u8) -> Registers {
    Registers { sad: [0x0000, 0x1000, 0, 0], fc: 1, crx: fx - 1, cry: 6, cursor: 3, ..registers(fx, columns, rows) }
}

/// Graphics in two layers, as much of the second apart from the first as memory has room for.
fn graphics(columns: u8, rows: u8) -> Registers {
    Registers { sad: [0x0000, 0x3000, 0, 0], dm2: true, dm1: true, ..registers(8, columns, rows) }
}

/// Three layers of grey.
fn grey(code: u8, mx: u8, columns: u8, rows: u8) -> Registers {
    let size = u16::from(columns) * u16::from(rows);
    Registers { sad: [0, size, 2 * size, 0], ov: true, dm2: true, dm1: true, mx, grey: code, ..registers(8, columns, rows) }
}

pub fn setups() -> Vec<Setup> {
    let font_codes: &[RangeInclusive<u8>] = &[0x20..=0x7F, 0xA0..=0xDF];
    let cg_ram_codes: &[RangeInclusive<u8>] = &[0x80..=0x9F, 0xE0..=0xFF];
    let in_cg_ram = Registers { cgram: 0x4000, ..text(8, 40, 240) };
    // The number is how many dots it is scrolled by too, in a set-up of its own; 0 for none.
    let listed = [
        ("640 x 240 graphics, two layers", graphics(80, 240), font_codes, 3),
        ("320 x 240 text over graphics, 8 x 8", text(8, 40, 240), font_codes, 3),
        ("320 x 240 text in CG RAM over graphics", in_cg_ram, cg_ram_codes, 0),
        ("320 x 240 text over graphics, [FX] 5", text(5, 64, 240), font_codes, 0),
        ("240 x 128 text over graphics, [FX] 6", text(6, 40, 128), font_codes, 5),
        ("320 x 128 of 2 bits, three layers, priority", grey(1, 3, 80, 128), font_codes, 0),
        ("160 x 120 of 4 bits, three layers, OR", grey(2, 0, 80, 120), font_codes, 0),
        ("160 x 120 of 4 bits, three layers, priority", grey(2, 3, 80, 120), font_codes, 0),
        ("640 x 240 of a display that is off", Registers { d: false, ..graphics(80, 240) }, font_codes, 0),
    ];
    let unscrolled = listed.iter().map(|(name, registers, codes, _)| setup(name.to_string(), *registers, codes));
    let scrolled = listed.iter().enumerate().filter(|(_, (.., by))| *by != 0).map(|(place, (name, registers, codes, by))| Setup {
        unscrolled: Some(place),
        ..setup(format!("{}, scrolled by {}", name, by), as_wide_scrolled(*registers, *by), codes)
    });
    unscrolled.chain(scrolled).collect()
}

/// A column more, so that the rows are as wide.
fn as_wide_scrolled(r: Registers, by: u8) -> Registers {
    Registers { cr: r.cr + 1, tcr: r.tcr + 1, ap: r.ap + 1, hdot: by, ..r }
}

/// Memory and font of seeded bytes; where block 1 is text, its codes are of the given ranges.
fn setup(name: String, registers: Registers, codes: &[RangeInclusive<u8>]) -> Setup {
    let mut random = Random::new(1);
    let mut memory = random.bytes(MEMORY_SIZE as u32);
    if !registers.dm1 {
        let codes: Vec<u8> = codes.iter().cloned().flatten().collect();
        memory[TEXT].fill_with(|| random.pick(&codes));
    }
    let font = random.bytes(FONT_SIZE as u32);
    Setup { name, unscrolled: None, controller: Controller { registers, pending: NONE, place: 0 }, memory, font }
}
