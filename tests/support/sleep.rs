//! Counts of sleep, waking and D (01, 'Reset, commands and parameters'; #102): a write, and the controller before and after it.

use crate::counts::Counts;
use reference::commands::*;
use reference::model::{Controller, NONE};

/// The commands that want data or have something to read.
pub const WITH_DATA: [u8; 12] =
    [SYSTEM_SET, DISP_OFF, SCROLL, CSRFORM, OVLAY, CGRAM_ADR, HDOT_SCR, GRAY_SCALE, CSRW, CSRR, MWRITE, MREAD];

pub fn command_write(before: &Controller, code: u8, answer: Result<(), u8>, after: &Controller, counts: &mut Counts) {
    let (was, is) = (&before.registers, &after.registers);
    let d = u8::from(was.d);
    match (code, answer) {
        (SYSTEM_SET, Ok(())) if is == was => counts.hit("asleep #, 40 leaves D #", &[u8::from(was.asleep), d]),
        (SLEEP_IN, Ok(())) if is.asleep => counts.hit("SLEEP IN accepted", &[]),
        (SLEEP_IN, Err(5)) if is == was => counts.hit("asleep with D #, SLEEP IN gets 5", &[d]),
        (SLEEP_IN, Err(19)) if is == was && after.pending == NONE => match before.pending {
            NONE => counts.hit("19 with no command pending", &[]),
            pending if before.wants_data() || has_reads(before) => counts.hit("19 ends $ before its data", &[pending]),
            _ => {}
        },
        _ => {}
    }
}

fn has_reads(awake: &Controller) -> bool {
    awake.pending == MREAD || awake.pending == CSRR && awake.place < 2
}

pub fn data_write(before: &Controller, answer: Result<(), u8>, after: &Controller, counts: &mut Counts) {
    if before.pending != SYSTEM_SET {
        return;
    }
    let (was, is) = (&before.registers, &after.registers);
    let d = u8::from(was.d);
    match (was.asleep, answer) {
        (true, Ok(())) if !is.asleep && !is.d => counts.hit("waking with D # leaves D 0", &[d]),
        (true, Ok(())) if is.asleep && is.d == was.d => counts.hit("asleep with D #, P# of SYSTEM SET stored", &[d, before.place + 1]),
        (true, Err(4)) if is == was && before.place == 0 => counts.hit("asleep with D #, P1 of SYSTEM SET gets 4", &[d]),
        (false, Ok(())) if is.d && was.d => counts.hit("awake, P# of SYSTEM SET leaves D 1", &[before.place + 1]),
        _ => {}
    }
}
