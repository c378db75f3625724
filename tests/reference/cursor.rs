//! The cursor in a row (01, 'Blocks and layers of a row').

use super::layers::{code_sum, glyph_row, is_text, Block};
use super::registers::{count, Registers};

/// Whether the block's cell in a column is text whose code address equals the cursor.
pub fn in_cell(r: &Registers, block: Block, row: u32, column: u32) -> bool {
    is_text(r, block) && code_sum(r, block, row, column) % 65_536 == u32::from(r.cursor)
}

/// Whether the cursor's shape has dots on the block's row.
pub fn in_rows(r: &Registers, block: Block, row: u32) -> bool {
    let row = glyph_row(r, block, row);
    if r.cm {
        row < count(r.cry)
    } else {
        row == count(r.cry) - 1
    }
}

/// Whether the cursor's shape has a dot of a cell, counted from its left.
pub fn in_dots(r: &Registers, dot: u32) -> bool {
    dot < count(r.crx)
}
