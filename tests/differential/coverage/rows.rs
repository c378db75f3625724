//! The rows of an accepted frame: how blocks make layers, and where bytes are fetched (01, 'Blocks and layers of a row').

use super::{cursor, dots, scrolling};
use reference::glyphs::{glyph_source, Source};
use reference::layers::{code_sum, glyph_row, graphics_sum, is_text, layers_of_row, Block, Layers};
use reference::model::Controller;
use reference::registers::{count, Registers};
use reference::row::Picture;
use support::counts::Counts;

pub fn watch_frame(controller: &Controller, memory: &[u8], font: &[u8], frame: u32, counts: &mut Counts) {
    let registers = &controller.registers.in_layout();
    let picture = Picture { registers, memory, font, frame };
    if registers.rows() == 256 {
        counts.hit("row 255 shown", &[]);
    }
    if !registers.d || registers.asleep {
        return;
    }
    for row in 0..registers.rows() {
        let layers = layers_of_row(registers, row);
        arrangement(registers, &layers, row, counts);
        for block in layers.blocks.iter().flatten() {
            for column in 0..count(registers.cr) {
                fetches(&picture, *block, row, column, counts);
            }
        }
        for x in scrolling::shown(registers) {
            let shown = dots::watch(&picture, &layers, x, row, counts);
            cursor::watch(&picture, &layers, x, row, shown, counts);
        }
        if registers.scrolled_by() != 0 {
            scrolling::watch(&picture, &layers, row, counts);
        }
    }
}

fn arrangement(r: &Registers, layers: &Layers, row: u32, counts: &mut Counts) {
    let ov = [u8::from(r.ov)];
    let block_of = |layer: usize| layers.blocks[layer].map(|block: Block| block.number);
    if r.ws && r.ov && r.dm_is_11() {
        counts.hit("W/S 1 with OV 1 and DM 11", &[]);
    }
    match (r.ws, layers.count, block_of(0), block_of(1)) {
        (true, _, Some(3), _) => counts.hit("W/S 1, lower half, OV #", &ov),
        (true, _, Some(_), Some(_)) => counts.hit("W/S 1, upper half, both layers, OV #", &ov),
        (true, _, None, Some(_)) => counts.hit("W/S 1, upper half, layer 1 blanked, OV #", &ov),
        (true, _, Some(_), None) => counts.hit("W/S 1, upper half, layer 2 blanked, OV #", &ov),
        (true, _, None, None) => counts.hit("W/S 1, upper half, both blanked, OV #", &ov),
        (false, 3, _, _) => {
            counts.hit("three layers", &[]);
            if row > u32::from(r.sl1.min(r.sl2)) {
                counts.hit("three layers on a row past SL1 or SL2", &[]);
            }
        }
        (false, _, Some(3), _) if r.sl1 < r.sl2 => counts.hit("two layers, SL1 < SL2, after the split, OV #", &ov),
        (false, _, Some(3), _) => counts.hit("two layers, SL1 = SL2, after the split, OV #", &ov),
        (false, _, _, Some(3)) => counts.hit("two layers, SL1 > SL2, after the split", &[]),
        _ if r.sl1 < r.sl2 => counts.hit("two layers, SL1 < SL2, before the split, OV #", &ov),
        _ if r.sl1 == r.sl2 => counts.hit("two layers, SL1 = SL2, before the split, OV #", &ov),
        _ => counts.hit("two layers, SL1 > SL2, before the split", &[]),
    }
}

/// What a fetch is for.
#[derive(Clone, Copy)]
enum Purpose {
    Graphics,
    Code,
    CgRam,
}

fn fetches(picture: &Picture, block: Block, row: u32, column: u32, counts: &mut Counts) {
    let r = picture.registers;
    let text = is_text(r, block);
    let sum = if text { code_sum(r, block, row, column) } else { graphics_sum(r, block, row, column) };
    if column > 0 && sum % 65_536 == 32_768 {
        counts.hit("row that leaves memory behind its first column, text #", &[u8::from(text)]);
    }
    if column > 0 && sum % 65_536 == 0 {
        counts.hit("row that comes back to 0000h behind its first column, text #", &[u8::from(text)]);
    }
    if !text {
        return fetch(picture, sum, Purpose::Graphics, counts);
    }
    fetch(picture, sum, Purpose::Code, counts);
    glyph(picture, picture.fetch(sum), glyph_row(r, block, row), counts);
}

fn fetch(picture: &Picture, sum: u32, purpose: Purpose, counts: &mut Counts) {
    if sum >= 65_536 && picture.fetch(sum) != 0 {
        match purpose {
            Purpose::Graphics => counts.hit("graphics address wrapped to a byte that isn't 0", &[]),
            Purpose::Code => counts.hit("text code address wrapped to a byte that isn't 0", &[]),
            Purpose::CgRam => counts.hit("CG RAM address wrapped to a byte that isn't 0", &[]),
        }
    }
    // A model that drops the top address bit would read a byte that isn't 0 here.
    if sum % 65_536 >= 32_768 && picture.fetch(sum - 32_768) != 0 {
        match purpose {
            Purpose::Graphics => counts.hit("graphics fetched at 8000h or above", &[]),
            Purpose::Code => counts.hit("text code fetched at 8000h or above, M0 #", &[u8::from(picture.registers.m0)]),
            Purpose::CgRam => counts.hit("CG RAM fetched at 8000h or above", &[]),
        }
    }
}

fn glyph(picture: &Picture, code: u8, row: u32, counts: &mut Counts) {
    let r = picture.registers;
    let source = glyph_source(r, code, row);
    let lit = picture.glyph_byte(source) != 0;
    match (source, code) {
        (Source::Blank, 0x00..=0x1F) if !r.m0 => counts.hit("blank glyph of codes 00 to 1F", &[]),
        (Source::Blank, 0x20..=0x7F | 0xA0..=0xDF) if !r.m0 => counts.hit("font row from 8 on is blank", &[]),
        (Source::Blank, _) => counts.hit("CG RAM row from 8 on is blank, M2 0", &[]),
        (Source::Font(_), 0x20..=0x7F) if lit => counts.hit("glyph of the font, codes 20 to 7F", &[]),
        (Source::Font(_), _) if lit => counts.hit("glyph of the font, codes A0 to DF", &[]),
        (Source::Font(_), _) => {}
        (Source::CgRam(sum), _) => {
            fetch(picture, sum, Purpose::CgRam, counts);
            if lit {
                cg_ram(r, code, row, counts);
            }
        }
    }
}

/// Counts a row of a CG RAM glyph that isn't empty.
fn cg_ram(r: &Registers, code: u8, row: u32, counts: &mut Counts) {
    match code {
        _ if r.m0 => counts.hit("glyph of CG RAM with M0 1", &[]),
        0x80..=0x9F => counts.hit("glyph of CG RAM, codes 80 to 9F", &[]),
        _ => counts.hit("glyph of CG RAM, codes E0 to FF", &[]),
    }
    counts.hit("glyph of CG RAM with M2 #", &[u8::from(r.m2)]);
    if row >= 8 {
        counts.hit("CG RAM row from 8 on is read, M2 1", &[]);
    }
}
