//! Bus files for the program: full refreshes with frames, and memory writes.

use crate::setups::Setup;
use reference::commands::*;
use support::records::Records;

/// Every command with all its parameters: the set-up of a controller and the whole memory.
pub fn refresh(setup: &Setup, records: &mut Records) {
    let r = &setup.controller.registers;
    let flag = |set: bool, bit: u8| u8::from(set) << bit;
    let [ap_low, ap_high] = r.ap.to_le_bytes();
    let [sad1, sad2, sad3, sad4] = r.sad.map(u16::to_le_bytes);
    let p1 = 0x10 | flag(r.ws, 3) | flag(r.m2, 2) | flag(r.m0, 0);
    records.command(SYSTEM_SET, &[p1, r.fx, r.fy, r.cr, r.tcr, r.lf, ap_low, ap_high]);
    let lines = [sad1[0], sad1[1], r.sl1, sad2[0], sad2[1], r.sl2, sad3[0], sad3[1], sad4[0], sad4[1]];
    records.command(SCROLL, &lines);
    // CRY 0 is no parameter; where the cursor is off, any other will do.
    records.command(CSRFORM, &[r.crx, flag(r.cm, 7) | r.cry.max(1)]);
    records.command(CSRDIR_RIGHT, &[]);
    records.command(OVLAY, &[flag(r.ov, 4) | flag(r.dm2, 3) | flag(r.dm1, 2) | r.mx]);
    records.word_command(CGRAM_ADR, r.cgram);
    records.command(HDOT_SCR, &[r.hdot]);
    records.command(GRAY_SCALE, &[r.grey]);
    records.command(if r.d { DISP_ON } else { DISP_OFF }, &[r.fp << 2 | r.fc]);
    records.word_command(CSRW, 0);
    records.command(MWRITE, &setup.memory);
}

/// A refresh and then some frames, as often as wanted.
pub fn refreshes(setup: &Setup, count: usize, frames: u32) -> Vec<u8> {
    let mut records = Records::default();
    for _ in 0..count {
        refresh(setup, &mut records);
        for frame in 0..frames {
            records.show(frame);
        }
    }
    records.bytes
}

/// Records of 2,000 data bytes, up and down by 16, each from where it does not leave memory.
pub fn writes(setup: &Setup, count: usize, direction: u8) -> Vec<u8> {
    let mut records = Records::default();
    records.command(SYSTEM_SET, &[0x10, 7, 7, 0, 4, 0, 16, 0]);
    records.command(direction, &[]);
    let start = if matches!(direction, CSRDIR_LEFT | CSRDIR_UP) { 1_999 * 16 } else { 0 };
    for _ in 0..count {
        records.word_command(CSRW, start);
        records.command(MWRITE, &setup.memory[..2_000]);
    }
    records.bytes
}
