//! Lit rows that are scrolled (#101). Dots are counted in the row that is composed without scrolling.

use reference::layers::Layers;
use reference::mixing::mix;
use reference::registers::{count, Registers};
use reference::row::Picture;
use std::ops::Range;
use support::counts::Counts;

/// The dots that a row shows.
pub fn shown(r: &Registers) -> Range<u32> {
    r.scrolled_by()..r.scrolled_by() + r.width()
}

pub fn watch(picture: &Picture, layers: &Layers, row: u32, counts: &mut Counts) {
    let r = picture.registers;
    let scrolled_by = |by: u32| (by..by + r.width()).map(move |x| picture.unscrolled_dot(x, row));
    // A row of dots that are all the same would say nothing of how far it is scrolled.
    let by = r.scrolled_by();
    if (0..count(r.fx)).all(|other| other == by || scrolled_by(other).ne(scrolled_by(by))) {
        counts.hit("row at [FX] # that only scrolling by # gives", &[count(r.fx) as u8, by as u8]);
        counts.hit("row of # layers that only its own scrolling gives", &[layers.count]);
    }
    cursor(picture, layers, row, counts);
}

/// The cursor at the edges of the row.
fn cursor(picture: &Picture, layers: &Layers, row: u32, counts: &mut Counts) {
    let r = picture.registers;
    // A dot that the cursor would change if it were shown.
    let changed = |x: u32| {
        let plain = layers.blocks.map(|layer| layer.map_or(0, |block| picture.block_dot(block, x, row)));
        picture.unscrolled_dot(x, row) != mix(r.mx, plain)
    };
    let mut shown = shown(r);
    let cut_left = (0..shown.start).any(changed);
    let cut_right = (shown.end..r.unscrolled_width()).any(changed);
    let seen = shown.clone().any(changed);
    if cut_left && seen {
        counts.hit("cursor cut by the left edge of a scrolled row", &[]);
    }
    if cut_right && seen {
        counts.hit("cursor cut by the right edge of a scrolled row", &[]);
    }
    if cut_left && !shown.any(|x| picture.cursor_inverts(layers, x, row)) {
        counts.hit("cursor hidden by scrolling", &[]);
    }
}
