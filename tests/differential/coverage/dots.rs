//! The dots of a lit row: flashing, and the layers mixed (01, 'Blocks and layers of a row').

use reference::flashing::{block_is_lit, flashing_code};
use reference::layers::{is_text, Block, Layers};
use reference::mixing::mix;
use reference::row::Picture;
use support::counts::Counts;

/// Watches a dot; hands back what its layers give before the cursor is inverted into them.
pub fn watch(picture: &Picture, layers: &Layers, x: u32, row: u32, counts: &mut Counts) -> [u8; 3] {
    let mut plain = [0; 3];
    let blocks = layers.blocks.iter().enumerate().filter_map(|(layer, block)| block.map(|block| (layer, block)));
    for (layer, block) in blocks {
        let stored = picture.stored_dot(block, x, row);
        if stored != 0 {
            let code = flashing_code(picture.registers.fp, block.number);
            let lit = block_is_lit(code, picture.frame);
            flashing(picture.frame, block, code, lit, counts);
            if lit {
                plain[layer] = stored;
                lit_dot(block.number, layer, is_text(picture.registers, block), counts);
            }
        }
    }
    let mut dots = plain;
    dots[0] ^= u8::from(picture.cursor_inverts(layers, x, row));
    mixing(picture, dots, layers.count, counts);
    plain
}

fn lit_dot(block: u8, layer: usize, text: bool, counts: &mut Counts) {
    match (block, layer, text) {
        (1, 0, true) => counts.hit("lit dot of block 1, text", &[]),
        (1, 0, false) => counts.hit("lit dot of block 1, graphics", &[]),
        (3, 0, true) => counts.hit("lit dot of block 3 as layer 1, text", &[]),
        (3, 0, false) => counts.hit("lit dot of block 3 as layer 1, graphics", &[]),
        (3, 1, _) => counts.hit("lit dot of block 3 as layer 2", &[]),
        (3, 2, _) => counts.hit("lit dot of block 3 as layer 3", &[]),
        _ => {}
    }
}

/// Counts the flashing of a dot that isn't 0 in its block.
fn flashing(frame: u32, block: Block, code: u8, lit: bool, counts: &mut Counts) {
    counts.hit(if lit { "block # with FP # lit" } else { "block # with FP # dark" }, &[block.number, code]);
    match (code, frame % 32) {
        (2, 22 | 23) => counts.hit("block # with FP 2 at frame # of 32", &[block.number, (frame % 32) as u8]),
        (3, _) => counts.hit("block # with FP 3 at frame # of 4", &[block.number, (frame % 4) as u8]),
        _ => {}
    }
    if code >= 2 && frame >= 1 << 31 {
        counts.hit("flashing at a frame number of 80000000h or above", &[]);
    }
}

/// Counts mixings in which two or more layers have a dot that isn't 0, and those that OR would give otherwise.
fn mixing(picture: &Picture, dots: [u8; 3], layers: u8, counts: &mut Counts) {
    let (bits, mx) = (picture.registers.bits() as u8, picture.registers.mx);
    if dots.iter().filter(|dot| **dot != 0).count() >= 2 {
        counts.hit("mixed at # bits, MX #, # layers", &[bits, mx, layers]);
    }
    if mix(mx, dots) != mix(0, dots) {
        counts.hit("mixed otherwise than OR at # bits, MX #, # layers", &[bits, mx, layers]);
    }
}
