//! The cursor in a lit row (01, 'Blocks and layers of a row').

use reference::cursor::{in_cell, in_dots, in_rows};
use reference::flashing::{block_is_lit, cursor_is_on, flashing_code};
use reference::layers::{code_sum, Block, Layers};
use reference::mixing::mix;
use reference::registers::count;
use reference::row::Picture;
use support::counts::Counts;

/// Watches a dot whose layers are `plain` before the cursor is inverted into them.
pub fn watch(picture: &Picture, layers: &Layers, x: u32, row: u32, plain: [u8; 3], counts: &mut Counts) {
    let r = picture.registers;
    let (column, dot) = picture.place(x);
    let on = cursor_is_on(r.fc, picture.frame);
    let block = match layers.blocks[0] {
        _ if layers.count != 2 => return,
        Some(block) => block,
        None => {
            // A row that SL1 blanks has no cells.
            if on && in_cell(r, Block { number: 1, first_row: 0 }, row, column) {
                counts.hit("cursor not seen on a row that SL1 blanks", &[]);
            }
            return;
        }
    };
    if !in_cell(r, block, row, column) {
        return;
    }
    if !in_rows(r, block, row) {
        if on && r.cry > r.fy {
            counts.hit("cursor not seen, CM 0 and [CRY] above [FY]", &[]);
        }
        return;
    }
    if !in_dots(r, dot) {
        if on {
            counts.hit("cursor leaves dots past [CRX] alone", &[]);
        }
        return;
    }
    flashing(r.fc, picture.frame, on, counts);
    let inverted = [plain[0] ^ 1, plain[1], plain[2]];
    if on && mix(r.mx, inverted) != mix(r.mx, plain) {
        seen(picture, block, row, column, counts);
    }
}

fn flashing(fc: u8, frame: u32, on: bool, counts: &mut Counts) {
    counts.hit(if on { "cursor with FC # on" } else { "cursor with FC # off" }, &[fc]);
    match (fc, frame % 64) {
        (2, 22 | 23 | 54 | 55) => counts.hit("cursor with FC 2 at frame # of 32", &[(frame % 32) as u8]),
        (3, 44 | 45) => counts.hit("cursor with FC 3 at frame # of 64", &[(frame % 64) as u8]),
        _ => {}
    }
}

/// Counts a cursor dot that the mixed row shows.
fn seen(picture: &Picture, block: Block, row: u32, column: u32, counts: &mut Counts) {
    let r = picture.registers;
    counts.hit("cursor seen, CM #", &[u8::from(r.cm)]);
    counts.hit("cursor seen in block #", &[block.number]);
    if !block_is_lit(flashing_code(r.fp, block.number), picture.frame) {
        counts.hit("cursor seen in a dark block", &[]);
    }
    match (r.ws, block.number) {
        (true, 1) => counts.hit("cursor seen in the upper half, W/S 1", &[]),
        (true, _) => counts.hit("cursor seen in the lower half, W/S 1", &[]),
        _ => {}
    }
    if r.cursor >= 0x8000 {
        counts.hit("cursor seen at 8000h or above", &[]);
    }
    if code_sum(r, block, row, column) >= 65_536 {
        counts.hit("cursor seen at an address that wrapped", &[]);
    }
    if r.ap == 0 && row - block.first_row >= count(r.fy) {
        counts.hit("cursor seen in a second cell of its address", &[]);
    }
}
