//! Runs: the data bytes of a record that go into memory, from the first on (01, 'Reset, commands and parameters').

use reference::commands::*;
use reference::model::Controller;
use reference::registers::Direction;
use support::counts::Counts;

/// Watches the data bytes of a record: the controller before them and their answers.
pub fn watch(before: &Controller, answers: &[Result<(), u8>], counts: &mut Counts) {
    let r = &before.registers;
    if before.pending != MWRITE || r.asleep {
        return;
    }
    let stored = answers.iter().take_while(|answer| answer.is_ok()).count();
    match (answers.len(), stored) {
        (0, _) => return counts.hit("MWRITE without data", &[]),
        (_, 0) => return counts.hit("run of no byte, MWRITE pending", &[]),
        _ => {}
    }
    let code = CSRDIR_RIGHT + r.direction as u8;
    if stored == answers.len() {
        counts.hit("run by direction $ of a whole record", &[code]);
    } else {
        counts.hit("run by direction $ leaves memory", &[code]);
        if answers[stored..].iter().any(Result::is_ok) {
            counts.hit("direction $ leaves memory and comes back in one record", &[code]);
        }
    }
    if stored > 1 {
        match (r.direction, r.ap) {
            (Direction::Up | Direction::Down, 0) => counts.hit("run by direction $ with AP 0", &[code]),
            // As far as moving right.
            (Direction::Up, 0xFFFF) | (Direction::Down, 1) => counts.hit("run by direction $ one address on", &[code]),
            _ => {}
        }
        if wraps(before, stored) {
            counts.hit("run by direction $ wraps inside memory", &[code]);
        }
    }
}

/// Whether an address of a run is on the other side of FFFFh from the one before it.
fn wraps(before: &Controller, stored: usize) -> bool {
    let r = &before.registers;
    let (ap, first) = (usize::from(r.ap), usize::from(r.cursor));
    match r.direction {
        Direction::Up => first < ap * (stored - 1),
        Direction::Down => first + ap * (stored - 1) > 0xFFFF,
        Direction::Right | Direction::Left => false,
    }
}
