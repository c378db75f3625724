//! One dot of a row, computed from scratch (01, 'Blocks and layers of a row').

use super::cursor;
use super::flashing::{block_is_lit, cursor_is_on, flashing_code};
use super::glyphs::{glyph_source, Source};
use super::layers::{code_sum, glyph_row, graphics_sum, is_text, layers_of_row, Block, Layers};
use super::mixing::mix;
use super::registers::Registers;

/// What an accepted row is made from: registers in their layout, memory and font of their sizes.
pub struct Picture<'a> {
    pub registers: &'a Registers,
    pub memory: &'a [u8],
    pub font: &'a [u8],
    pub frame: u32,
}

impl Picture<'_> {
    /// A dot of the row: the one so many dots further on in the row that is composed without scrolling (#101).
    pub fn dot(&self, x: u32, row: u32) -> u8 {
        self.unscrolled_dot(x + self.registers.scrolled_by(), row)
    }

    /// A dot of the row that is composed without scrolling. The functions below count dots in that row too.
    pub fn unscrolled_dot(&self, x: u32, row: u32) -> u8 {
        let r = self.registers;
        if !r.d || r.asleep {
            return 0;
        }
        let layers = layers_of_row(r, row);
        let mut dots = layers.blocks.map(|layer| layer.map_or(0, |block| self.block_dot(block, x, row)));
        if self.cursor_inverts(&layers, x, row) {
            dots[0] ^= 1;
        }
        mix(r.mx, dots)
    }

    /// The dot that a block gives; 0 where FP darkens the block.
    pub fn block_dot(&self, block: Block, x: u32, row: u32) -> u8 {
        let code = flashing_code(self.registers.fp, block.number);
        if block_is_lit(code, self.frame) {
            self.stored_dot(block, x, row)
        } else {
            0
        }
    }

    /// The dot that a block has, lit or not. Bit 7, or the top group of bits, is leftmost.
    pub fn stored_dot(&self, block: Block, x: u32, row: u32) -> u8 {
        let r = self.registers;
        let (column, group) = self.place(x);
        let byte = if is_text(r, block) {
            let code = self.fetch(code_sum(r, block, row, column));
            self.glyph_byte(glyph_source(r, code, glyph_row(r, block, row)))
        } else {
            self.fetch(graphics_sum(r, block, row, column))
        };
        let shift = 8 - r.bits() * (group + 1);
        byte >> shift & ((1u32 << r.bits()) - 1) as u8
    }

    /// The column of a dot, and which dot of the column it is.
    pub fn place(&self, x: u32) -> (u32, u32) {
        let dots = self.registers.dots_of_column();
        (x / dots, x % dots)
    }

    /// The byte at a sum of addresses modulo 65,536; 0 at 8000h or above.
    pub fn fetch(&self, sum: u32) -> u8 {
        let address = (sum % 65_536) as usize;
        self.memory.get(address).copied().unwrap_or(0)
    }

    pub fn glyph_byte(&self, source: Source) -> u8 {
        match source {
            Source::Blank => 0,
            Source::Font(index) => self.font[index],
            Source::CgRam(sum) => self.fetch(sum),
        }
    }

    /// Whether the cursor inverts the dot of layer 1. It shows with two layers only, also where FP darkens the block; rows
    /// that SL1 blanks have no cells.
    pub fn cursor_inverts(&self, layers: &Layers, x: u32, row: u32) -> bool {
        let r = self.registers;
        let (column, dot) = self.place(x);
        match layers.blocks[0] {
            Some(block) if layers.count == 2 => {
                cursor_is_on(r.fc, self.frame)
                    && cursor::in_cell(r, block, row, column)
                    && cursor::in_rows(r, block, row)
                    && cursor::in_dots(r, dot)
            }
            _ => false,
        }
    }
}
