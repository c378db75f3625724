//! A set-up of registers and memory whose rows are accepted, chosen near the edges of 01's rules.

use crate::random::Random;
use crate::records::Records;
use reference::busfile::{next_record, Machine, Record};
use reference::commands::*;

/// How blocks make layers (01, 'Blocks and layers of a row').
#[derive(Clone, Copy, PartialEq)]
enum Arrangement {
    SplitFirst,
    SplitSecond,
    Three,
    Halves,
}

pub struct Setup {
    pub ws: bool,
    pub m2: bool,
    pub m0: bool,
    pub fx: u8,
    pub fy: u8,
    pub cr: u8,
    pub tcr: u8,
    pub lf: u8,
    pub ap: u16,
    /// FP5 to FP0 and FC, as the parameter of DISP has them.
    pub flashing: u8,
    pub sad: [u16; 4],
    pub sl1: u8,
    pub sl2: u8,
    pub crx: u8,
    pub cm: bool,
    pub cry: u8,
    pub ov: bool,
    pub dm2: bool,
    pub dm1: bool,
    pub mx: u8,
    pub cgram: u16,
    pub hdot: u8,
    pub grey: u8,
    pub cursor: u16,
    /// Areas of memory, which may reach past its end: bytes for graphics and CG RAM, codes for text.
    pub data: (u16, Vec<u8>),
    pub text: (u16, Vec<u8>),
}

impl Setup {
    pub fn choose(random: &mut Random) -> Setup {
        use Arrangement::*;
        let arrangement = random.pick(&[SplitFirst, SplitFirst, SplitFirst, SplitFirst, SplitSecond, Three, Three, Halves, Halves, Halves]);
        let ov = arrangement == Three || arrangement != SplitSecond && random.chance(40);
        let (dm2, dm1) = match arrangement {
            SplitSecond | Three => (true, true),
            SplitFirst if ov => random.pick(&[(false, false), (false, true), (true, false)]),
            _ => random.pick(&[(false, false), (false, true), (true, false), (true, true)]),
        };
        let grey = if dm2 && dm1 { random.below(3) as u8 } else { 0 };
        let fx = if grey != 0 || random.chance(25) { 7 } else { random.below(8) as u8 };
        let fy = random.pick(&[0, 1, 2, 3, 5, 7, 7, 8, 9, 11, 13, 15]);
        // Tall glyphs need rows to be seen.
        let fewest = if fy >= 8 { 12 } else { 1 };
        let (columns, mut rows) = (random.between(1, 12), random.between(fewest, 20));
        if arrangement == Halves {
            rows += rows % 2;
        }
        let cr = columns as u8 - 1;
        let (sl1, sl2) = scroll_lines(arrangement, rows, random);
        let (m2, m0) = (random.chance(50), random.chance(30));
        let data = (random.pick(&[0, 0x10, 0x100, 0x1234, 0x4000, 0x7F00, 0x7FA0]), random.between(40, 200));
        let data = (data.0, random.bytes(data.1));
        let codes = palette(m0, random);
        let text_at = random.pick(&[0, 0x300, 0x2001, 0x5A00, 0x7F80]);
        let text = (text_at, (0..random.between(30, 120)).map(|_| random.pick(&codes)).collect());
        let mut setup = Setup {
            ws: arrangement == Halves,
            m2,
            m0,
            fx,
            fy,
            cr,
            tcr: cr + 4 + if random.chance(50) { 0 } else { random.byte() / 2 },
            lf: rows as u8 - 1,
            ap: address_pitch(columns as u16, random),
            flashing: flashing(random),
            sad: [0; 4],
            sl1,
            sl2,
            crx: random.below(u32::from(fx) + 1) as u8,
            cm: random.chance(50),
            cry: if random.chance(70) { random.between(1, u32::from(fy).max(1)) } else { random.between(1, 15) } as u8,
            ov,
            dm2,
            dm1,
            mx: random.below(4) as u8,
            cgram: cgram_address(data.0, codes[0], m2, random),
            hdot: dots_scrolled(fx, cr, grey, random),
            grey,
            cursor: 0,
            data,
            text,
        };
        for block in 0..4 {
            let is_text = block == 0 && !dm1 || block == 2 && !dm2;
            let area = if is_text { setup.text.0 } else { setup.data.0 };
            setup.sad[block] = near(area, random);
        }
        setup.cursor = setup.text_cell(random);
        setup
    }

    /// The address of a cell of block 1 or 3, so that the cursor is likely to be seen.
    fn text_cell(&self, random: &mut Random) -> u16 {
        let block = if self.dm1 || random.chance(40) { 2 } else { 0 };
        let lines = u32::from(self.lf) / (u32::from(self.fy) + 1) + 1;
        let line = if random.chance(60) { 0 } else { random.below(lines) as u16 };
        let column = random.below(u32::from(self.cr) + 1) as u16;
        self.sad[block].wrapping_add(line.wrapping_mul(self.ap)).wrapping_add(column)
    }

    /// SYSTEM SET and then the other register commands in any order, each with all its parameters.
    pub fn register_commands(&self, random: &mut Random) -> Vec<(u8, Vec<u8>)> {
        let flag = |set: bool, bit: u8| u8::from(set) << bit;
        let [ap_low, ap_high] = self.ap.to_le_bytes();
        let p1 = 0x10 | flag(random.chance(50), 5) | flag(self.ws, 3) | flag(self.m2, 2) | flag(self.m0, 0);
        let p2 = flag(random.chance(50), 7) | self.fx;
        let sad: Vec<[u8; 2]> = self.sad.iter().map(|address| address.to_le_bytes()).collect();
        let mut rest = vec![
            (
                SCROLL,
                vec![
                    sad[0][0], sad[0][1], self.sl1, sad[1][0], sad[1][1], self.sl2, sad[2][0], sad[2][1], sad[3][0], sad[3][1],
                ],
            ),
            (CSRFORM, vec![self.crx, flag(self.cm, 7) | self.cry]),
            (OVLAY, vec![flag(self.ov, 4) | flag(self.dm2, 3) | flag(self.dm1, 2) | self.mx]),
            (CGRAM_ADR, self.cgram.to_le_bytes().to_vec()),
            (HDOT_SCR, vec![self.hdot]),
            (GRAY_SCALE, vec![self.grey]),
            (if random.chance(94) { DISP_ON } else { DISP_OFF }, vec![self.flashing]),
        ];
        random.shuffle(&mut rest);
        let mut all = vec![(SYSTEM_SET, vec![p1, p2, self.fy, self.cr, self.tcr, self.lf, ap_low, ap_high])];
        all.append(&mut rest);
        all
    }

    /// Fills both areas of memory and sets the cursor.
    pub fn fill_memory(&self, records: &mut Records) {
        for (address, bytes) in [&self.data, &self.text] {
            records.word_command(CSRW, *address);
            records.command(MWRITE, bytes);
        }
        records.word_command(CSRW, self.cursor);
    }

    /// The reference after all of it.
    pub fn machine(&self, random: &mut Random) -> Machine {
        let mut records = Records::default();
        for (code, list) in self.register_commands(random) {
            records.command(code, &list);
        }
        self.fill_memory(&mut records);
        let mut machine = Machine::new();
        let mut rest = &records.bytes[..];
        while let Some((Record::Command(payload), after)) = next_record(rest) {
            for (index, byte) in payload.iter().enumerate() {
                // An area may reach past the end of memory.
                assert!(matches!(machine.bus_write(index, *byte), Ok(()) | Err(7)), "a set-up is accepted");
            }
            rest = after;
        }
        machine
    }
}

fn scroll_lines(arrangement: Arrangement, rows: u32, random: &mut Random) -> (u8, u8) {
    let split = random.below(rows) as u8;
    let above = split + 1 + if random.chance(50) { random.below(6) as u8 } else { 200 };
    match arrangement {
        Arrangement::SplitFirst => (split, if random.chance(25) { split } else { above }),
        Arrangement::SplitSecond => (above, split),
        Arrangement::Halves => (random.below(rows) as u8, random.below(rows) as u8),
        Arrangement::Three => random.pick(&[(split, above), (above, split), (split, split)]),
    }
}

/// Dots to scroll by where a row can be scrolled; none in some three of five set-ups.
fn dots_scrolled(fx: u8, cr: u8, grey: u8, random: &mut Random) -> u8 {
    if grey == 0 && fx > 0 && cr > 0 && random.chance(75) {
        random.between(1, u32::from(fx)) as u8
    } else {
        0
    }
}

/// A few character codes, mostly at the edges of 01's ranges. With M0 = 1 they lie close together, as CG RAM does.
fn palette(m0: bool, random: &mut Random) -> Vec<u8> {
    let first = random.byte();
    (0..random.between(2, 7))
        .map(|_| match random.below(6) {
            _ if m0 => first.wrapping_add(random.below(5) as u8),
            0 => random.pick(&[0x00, 0x0F, 0x10, 0x1F]),
            1 => random.pick(&[0x20, 0x21, 0x41, 0x5A, 0x7E, 0x7F]),
            2 => random.pick(&[0xA0, 0xA1, 0xC3, 0xDE, 0xDF]),
            3 => random.pick(&[0x80, 0x81, 0x8F, 0x9E, 0x9F]),
            4 => random.pick(&[0xE0, 0xE1, 0xF0, 0xFE, 0xFF]),
            _ => random.byte(),
        })
        .collect()
}

/// Mostly the columns of a row, or a little more; sometimes one that leads far away or wraps.
fn address_pitch(columns: u16, random: &mut Random) -> u16 {
    match random.below(10) {
        0 => 0,
        1 => random.word(),
        2 => 0u16.wrapping_sub(random.below(16) as u16),
        3 => random.pick(&[0x3FFF, 0x4000, 0x7FFF, 0x8000, 0x8001]),
        _ => columns + random.below(4) as u16,
    }
}

/// An address in or before an area; sometimes its mirror at 8000h or above, which reads 0.
fn near(area: u16, random: &mut Random) -> u16 {
    match random.below(10) {
        0 => area | 0x8000,
        1 => random.word(),
        2 | 3 => area.wrapping_sub(random.below(10) as u16),
        _ => area + random.below(16) as u16,
    }
}

/// Places the CG RAM glyph of a code in the data area or, sometimes, in its mirror.
fn cgram_address(area: u16, code: u8, m2: bool, random: &mut Random) -> u16 {
    let target = near(area, random);
    target.wrapping_sub(u16::from(code) * if m2 { 16 } else { 8 })
}

fn flashing(random: &mut Random) -> u8 {
    let mut parameter = random.below(4) as u8;
    for field in 1..4 {
        let code = if random.chance(50) { 1 } else { random.below(4) as u8 };
        parameter |= code << (2 * field);
    }
    parameter
}
