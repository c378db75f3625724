//! The refusals of a row: 1, then 8 to 17 in number order (01, 'Refusal numbers'), with 18 after 10 (#101). They are tested
//! with D = 0 and asleep too.

use super::registers::{count, Registers};

pub const MEMORY_SIZE: usize = 32_768;
pub const FONT_SIZE: usize = 1_280;
pub const WIDEST: u32 = 640;

/// What a row is asked with, beside the registers: the lengths of what is lent, and the row's number.
pub struct RowRequest {
    pub memory: usize,
    pub font: usize,
    pub row: u32,
    pub buffer: usize,
}

/// Each refusal with whether it applies, in the order of the tests.
pub fn tests_of_row(r: &Registers, request: &RowRequest) -> [(u8, bool); 12] {
    let fx = count(r.fx);
    let by = r.scrolled_by();
    let two_layers = !(r.ov && r.dm_is_11());
    [
        (1, request.memory != MEMORY_SIZE),
        (8, request.font != FONT_SIZE),
        (9, r.grey != 0 && (!r.dm_is_11() || fx != 8)),
        (10, fx > 8),
        (18, by != 0 && (r.grey != 0 || by >= fx || count(r.cr) == 1)),
        (11, r.width() > WIDEST),
        (12, r.ws && r.rows() % 2 == 1),
        (13, u32::from(r.tcr) < u32::from(r.cr) + 4),
        (14, !r.ws && two_layers && r.sl2 < r.sl1 && !r.dm_is_11()),
        (15, r.fc != 0 && (r.cry == 0 || count(r.crx) > fx)),
        (16, request.row >= r.rows()),
        (17, request.buffer != r.width() as usize),
    ]
}

/// The first that applies is the answer.
pub fn of_row(r: &Registers, request: &RowRequest) -> Result<(), u8> {
    match tests_of_row(r, request).iter().find(|(_, applies)| *applies) {
        Some((number, _)) => Err(*number),
        None => Ok(()),
    }
}
