//! Flashing by the frame number (01, 'Blocks and layers of a row').

fn on_in_period(frame: u32, period: u32) -> bool {
    10 * (frame % period) < 7 * period
}

/// The two bits of FP that rule a block.
pub fn flashing_code(fp: u8, block: u8) -> u8 {
    match block {
        1 => fp & 3,
        3 => fp >> 4 & 3,
        _ => fp >> 2 & 3,
    }
}

/// Blocks: FP.
pub fn block_is_lit(code: u8, frame: u32) -> bool {
    match code {
        0 => false,
        1 => true,
        2 => on_in_period(frame, 32),
        _ => on_in_period(frame, 4),
    }
}

/// Cursor: FC.
pub fn cursor_is_on(code: u8, frame: u32) -> bool {
    match code {
        0 => false,
        1 => true,
        2 => on_in_period(frame, 32),
        _ => on_in_period(frame, 64),
    }
}
