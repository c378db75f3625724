//! Which block supplies each layer of a row (01, 'Blocks and layers of a row').

use super::registers::{count, Registers};

/// A block, 1 to 4, and the row that its own rows count from.
#[derive(Clone, Copy, PartialEq, Debug)]
pub struct Block {
    pub number: u8,
    pub first_row: u32,
}

/// Layers 1, 2 and perhaps 3; a layer without a block is blank.
pub struct Layers {
    pub count: u8,
    pub blocks: [Option<Block>; 3],
}

fn block(number: u8, first_row: u32) -> Option<Block> {
    Some(Block { number, first_row })
}

fn two(first: Option<Block>, second: Option<Block>) -> Layers {
    Layers { count: 2, blocks: [first, second, None] }
}

pub fn layers_of_row(r: &Registers, row: u32) -> Layers {
    if r.ws {
        halves(r, row)
    } else if r.ov && r.dm_is_11() {
        Layers { count: 3, blocks: [block(1, 0), block(2, 0), block(3, 0)] }
    } else if r.sl1 <= r.sl2 {
        let split = count(r.sl1);
        two(if row < split { block(1, 0) } else { block(3, split) }, block(2, 0))
    } else {
        let split = count(r.sl2);
        two(block(1, 0), if row < split { block(2, 0) } else { block(3, split) })
    }
}

/// W/S = 1: SL1 and SL2 blank rows of the upper half only.
fn halves(r: &Registers, row: u32) -> Layers {
    let middle = r.rows() / 2;
    if row >= middle {
        return two(block(3, middle), block(4, middle));
    }
    two(
        if row < count(r.sl1) { block(1, 0) } else { None },
        if row < count(r.sl2) { block(2, 0) } else { None },
    )
}

/// Block 1 is text if DM1 = 0, block 3 if DM2 = 0; blocks 2 and 4 are graphics.
pub fn is_text(r: &Registers, block: Block) -> bool {
    match block.number {
        1 => !r.dm1,
        3 => !r.dm2,
        _ => false,
    }
}

// Addresses are handed out as sums, whose low 16 bits are the address.

/// The sum of a byte of graphics in a column.
pub fn graphics_sum(r: &Registers, block: Block, row: u32, column: u32) -> u32 {
    start(r, block) + (row - block.first_row) * u32::from(r.ap) + column
}

/// The sum of the code of a text cell.
pub fn code_sum(r: &Registers, block: Block, row: u32, column: u32) -> u32 {
    start(r, block) + (row - block.first_row) / count(r.fy) * u32::from(r.ap) + column
}

/// The row of its glyphs that a row of text shows.
pub fn glyph_row(r: &Registers, block: Block, row: u32) -> u32 {
    (row - block.first_row) % count(r.fy)
}

fn start(r: &Registers, block: Block) -> u32 {
    u32::from(r.sad[usize::from(block.number) - 1])
}
