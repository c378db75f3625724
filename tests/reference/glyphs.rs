//! Where the bytes of glyphs come from (01, 'Blocks and layers of a row').

use super::registers::Registers;

/// Where a row of a glyph comes from.
#[derive(Clone, Copy, PartialEq, Debug)]
pub enum Source {
    Blank,
    /// A byte of the font.
    Font(usize),
    /// A sum whose low 16 bits are an address in CG RAM.
    CgRam(u32),
}

pub fn glyph_source(r: &Registers, code: u8, row: u32) -> Source {
    if r.m0 {
        return cg_ram(r, code, row);
    }
    match code {
        0x00..=0x1F => Source::Blank,
        0x20..=0x7F => font(code - 0x20, row),
        0x80..=0x9F => cg_ram(r, code, row),
        0xA0..=0xDF => font(code - 0x40, row),
        0xE0..=0xFF => cg_ram(r, code, row),
    }
}

/// Eight bytes a glyph, top first; rows from 8 on are blank.
fn font(index: u8, row: u32) -> Source {
    if row < 8 {
        Source::Font(usize::from(index) * 8 + row as usize)
    } else {
        Source::Blank
    }
}

fn cg_ram(r: &Registers, code: u8, row: u32) -> Source {
    let size = if r.m2 { 16 } else { 8 };
    if row < size {
        Source::CgRam(u32::from(r.cgram) + u32::from(code) * size + row)
    } else {
        Source::Blank
    }
}
