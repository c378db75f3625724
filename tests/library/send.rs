//! Counts what records reached: a command byte and its data writes in one call.

use crate::watch::{wrong_memory, Seen};
use host::calls::NOTHING_SENT;
use host::saved;
use reference::commands::*;
use reference::model::Controller;
use support::counts::Counts;

pub fn watch(controller: &Controller, bytes: &[u8], answers: usize, seen: &Seen, counts: &mut Counts) {
    if seen.answer == NOTHING_SENT {
        return refused(bytes.len(), answers, counts);
    }
    if seen.answer == 0 {
        counts.hit("send that refuses nothing", &[]);
    }
    counts.hit("send ends $", &[controller.pending]);
    let (code, first, data) = (bytes[0], seen.buffer[0], &seen.buffer[1..]);
    match (first, data) {
        (0, []) => counts.hit("send of a command alone", &[]),
        (_, []) => counts.hit("send of a refused command alone", &[]),
        (0, _) => {
            counts.hit("send of $ with data", &[code]);
            match code {
                MWRITE => run(controller, data, seen, counts),
                _ => list(controller, code, data, counts),
            }
        }
        (5, _) if code == MWRITE => counts.hit("asleep, send of MWRITE with data", &[]),
        _ => counts.hit("send of a command that gets #, with data", &[first]),
    }
}

/// A record that isn't carried out, since it is empty or its answers have another length.
fn refused(bytes: usize, answers: usize, counts: &mut Counts) {
    match (bytes, answers) {
        (0, 0) => counts.hit("no bytes and no answers", &[]),
        (0, _) => counts.hit("no bytes and an answer", &[]),
        (_, 0) => counts.hit("bytes and no answers", &[]),
        _ if answers < bytes => counts.hit("an answer too few", &[]),
        _ => counts.hit("an answer too many", &[]),
    }
}

/// The answers of data writes with MWRITE pending.
fn run(controller: &Controller, data: &[u8], seen: &Seen, counts: &mut Counts) {
    let direction = controller.registers.direction as u8;
    if data[0] == 0 && seen.before.controller[saved::DIRECTION] > 3 {
        counts.hit("direction above 3 moves right", &[]);
    }
    match (data[0], data[data.len() - 1]) {
        (1, _) => counts.hit("1 on data writes, wrong memory #", &[wrong_memory(seen.before.memory.len())]),
        (0, 7) => counts.hit("data writes that leave memory, direction #", &[direction]),
        (7, 0) => counts.hit("data writes that come into memory, direction #", &[direction]),
        (7, _) => counts.hit("data writes that start outside memory", &[]),
        _ if data.iter().all(|number| *number == 0) => counts.hit("data writes all stored, direction #", &[direction]),
        _ => counts.hit("data writes that leave memory and come back, direction #", &[direction]),
    }
}

/// The answers of parameters, and of what is more than a command wants.
fn list(controller: &Controller, code: u8, data: &[u8], counts: &mut Counts) {
    let wanted = usize::from(parameter_count(code));
    let taken = data.iter().filter(|number| **number == 0).count();
    if taken > 0 && controller.registers.asleep {
        counts.hit("send that wakes", &[]);
    }
    if taken == wanted && data.len() == wanted {
        counts.hit("send of the whole list of $", &[code]);
    }
    if taken == wanted && data.len() > wanted {
        counts.hit("send of more than $ wants", &[code]);
    }
    if taken > 0 && data.contains(&4) {
        counts.hit("send with a parameter that gets 4 behind one that is taken", &[]);
    }
    if data.starts_with(&[4, 3]) {
        counts.hit("send with 3 behind a parameter that gets 4", &[]);
    }
}
