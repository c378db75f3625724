//! Counts what the cases reached: the state before a call, the call, the answer, and what it left.

use crate::cases::Call;
use crate::compare::Kept;
use crate::send;
use host::expected;
use host::handed_in::{Row, FX, GREY, HDOT, LIMITED, WRONG_FONTS, WRONG_MEMORIES};
use host::saved;
use reference::commands::*;
use reference::model::{Controller, NONE};
use reference::refusals::{tests_of_row, RowRequest, WIDEST};
use support::counts::Counts;
use support::sleep;

/// A call that compared equal: what it was lent, its answer, and what it left.
pub struct Seen<'a> {
    pub before: &'a Kept,
    pub font: &'a [u8],
    pub answer: u32,
    /// The answers of a record, or the dots of a row.
    pub buffer: &'a [u8],
    pub after: &'a Kept,
}

pub fn call(call: &Call, seen: &Seen, counts: &mut Counts) {
    let Seen { before, answer, after, .. } = *seen;
    let controller = match saved::read(&before.controller) {
        Some(controller) => controller,
        None => return no_controller(call, before.controller.len(), counts),
    };
    let number = (answer % 256) as u8;
    let outcome = if number == 0 { Ok(()) } else { Err(number) };
    let left = saved::read(&after.controller).expect("a call leaves a saved controller");
    handed_in_form(call, before, after, counts);
    match call {
        Call::Send { bytes, answers } => return send::watch(&controller, bytes, *answers, seen, counts),
        Call::FrameSize => return frame_size(&controller, answer, counts),
        Call::Reset => {}
        Call::CommandWrite(byte) => sleep::command_write(&controller, *byte, outcome, &left, counts),
        Call::DataWrite(_) => {
            data_write(&controller, before, number, after, counts);
            sleep::data_write(&controller, outcome, &left, counts);
        }
        Call::DataRead => data_read(&controller, before, answer, counts),
        Call::Row(Row { frame, row, length }) => {
            let request = RowRequest { memory: before.memory.len(), font: seen.font.len(), row: *row, buffer: *length };
            tested_row(&controller, &request, counts);
            if number == 0 {
                accepted_row(&controller, before, seen.font, *frame, &request, counts);
            }
        }
    }
    counts.hit("answer #", &[number]);
}

/// Bytes that are no saved controller. A record is counted where that alone keeps it from being sent.
fn no_controller(call: &Call, length: usize, counts: &mut Counts) {
    match call {
        Call::Send { bytes, answers } if bytes.is_empty() || *answers != bytes.len() => {}
        _ if length == saved::LENGTH => counts.hit("function # on another format", &[call.function()]),
        _ => counts.hit("function # on a controller of another length", &[call.function()]),
    }
}

pub fn wrong_memory(length: usize) -> u8 {
    WRONG_MEMORIES.iter().position(|wrong| *wrong == length).expect("one of the wrong lengths") as u8
}

fn frame_size(controller: &Controller, answer: u32, counts: &mut Counts) {
    let registers = controller.registers.in_layout();
    counts.hit("frame size, scrolled by #", &[registers.hdot]);
    counts.hit("frame size, grey code #", &[registers.grey]);
    match answer % 65_536 {
        0 => counts.hit("frame size of no dots a row", &[]),
        width if width > WIDEST => counts.hit("frame size wider than a row may be", &[]),
        _ => {}
    }
    if answer / 65_536 == 256 {
        counts.hit("frame size of 256 rows", &[]);
    }
    let bytes = saved::write(controller);
    for (at, end) in LIMITED.into_iter().filter(|(at, _)| [FX, HDOT, GREY].contains(at)) {
        let mut low_bits = bytes.clone();
        low_bits[at] &= end.next_power_of_two() - 1;
        if bytes[at] >= end && expected::frame_size(&low_bits) != answer {
            counts.hit("frame size, field at # whose low bits would give another", &[at as u8]);
        }
    }
}

/// Bytes outside the saved form, which a call that writes it back mends.
fn handed_in_form(call: &Call, before: &Kept, after: &Kept, counts: &mut Counts) {
    for flag in saved::FLAGS {
        if before.controller[flag] > 1 && after.controller[flag] == 0 {
            counts.hit("flag at # above 1, written back as 0", &[flag as u8]);
            counts.hit("function # writes a flag above 1 back as 0", &[call.function()]);
        }
    }
    let reserved = |kept: &Kept| kept.controller[saved::RESERVED].iter().any(|byte| *byte != 0);
    if reserved(before) && !reserved(after) {
        counts.hit("function # writes reserved bytes back as 0", &[call.function()]);
    }
}

fn data_write(controller: &Controller, before: &Kept, number: u8, after: &Kept, counts: &mut Counts) {
    let Controller { pending, place, registers } = *controller;
    let asleep = registers.asleep;
    let past = pending != MWRITE && place >= parameter_count(pending);
    match number {
        1 => counts.hit("1 on a data write, wrong memory #", &[wrong_memory(before.memory.len())]),
        3 if pending == NONE && before.controller[saved::PENDING] != 0 => counts.hit("pending code of no command wants nothing", &[]),
        3 if past && !asleep => counts.hit("place past the list of $ wants nothing", &[pending]),
        3 if !past => counts.hit("asleep, $ wants nothing", &[pending]),
        0 if pending == MWRITE => {
            if place != 0 {
                counts.hit("MWRITE at a place that isn't 0", &[]);
            }
            if before.controller[saved::DIRECTION] > 3 {
                counts.hit("direction above 3 moves right", &[]);
            }
        }
        0 => {
            counts.hit("parameter # of $ stored", &[place + 1, pending]);
            if before.controller[saved::PENDING] != pending {
                counts.hit("parameter stored for a code that is not the first of its row", &[]);
            }
            for (at, end) in LIMITED {
                if before.controller[at] >= end && after.controller[at] < end {
                    counts.hit("field at # outside its layout replaced by a parameter", &[at as u8]);
                }
            }
        }
        _ => {}
    }
}

fn data_read(controller: &Controller, before: &Kept, answer: u32, counts: &mut Counts) {
    let Controller { pending, place, registers } = *controller;
    match (answer % 256, pending) {
        (1, _) => counts.hit("1 on a data read, wrong memory #", &[wrong_memory(before.memory.len())]),
        (6, CSRR | MREAD) if registers.asleep => counts.hit("asleep, $ has nothing to read", &[pending]),
        (6, CSRR) => counts.hit("place past the reads of CSRR", &[]),
        (0, CSRR) => counts.hit("CSRR read #", &[place + 1]),
        (0, _) if answer != 0 && place != 0 => counts.hit("MREAD of a byte that isn't 0 at a place that isn't 0", &[]),
        _ => {}
    }
}

fn tested_row(controller: &Controller, request: &RowRequest, counts: &mut Counts) {
    let registers = controller.registers.in_layout();
    let tests = tests_of_row(&registers, request);
    let mut applying = tests.iter().filter(|(_, applies)| *applies).map(|(number, _)| *number);
    let first = match applying.next() {
        Some(first) => first,
        None => return,
    };
    for later in applying {
        counts.hit("refusal # before #, both apply", &[first, later]);
    }
    let (width, rows) = controller.frame_size();
    let unscrolled_width = registers.unscrolled_width();
    match first {
        1 => counts.hit("1 on a row, wrong memory #", &[wrong_memory(request.memory)]),
        8 => {
            let index = WRONG_FONTS.iter().position(|wrong| *wrong == request.font).expect("one of the wrong lengths");
            counts.hit("8, wrong font #", &[index as u8]);
        }
        15 if controller.registers.cry >= 16 && registers.crx <= registers.fx => counts.hit("15 since CRY is read as 0", &[]),
        18 if controller.registers.fx >= 16 && registers.grey == 0 && registers.cr != 0 && registers.hdot <= controller.registers.fx % 16 => {
            counts.hit("18 since FX is read as 0", &[])
        }
        16 if request.row == rows => counts.hit("16 at row [L/F]", &[]),
        16 if request.row == u32::MAX => counts.hit("16 at the last number of 32 bits", &[]),
        16 if request.row % 65_536 < rows => counts.hit("16 where the row modulo 65,536 would pass", &[]),
        16 if request.row % 256 < rows => counts.hit("16 where the row modulo 256 would pass", &[]),
        17 if request.buffer == 0 => counts.hit("17 for an empty buffer", &[]),
        17 if request.buffer + 1 == width as usize => counts.hit("17 for a byte too few", &[]),
        17 if request.buffer == width as usize + 1 => counts.hit("17 for a byte too many", &[]),
        17 if request.buffer == unscrolled_width as usize => counts.hit("17 for a buffer of the unscrolled width", &[]),
        _ => {}
    }
}

fn accepted_row(controller: &Controller, before: &Kept, font: &[u8], frame: u32, request: &RowRequest, counts: &mut Counts) {
    let row_of = |bytes: &[u8]| {
        let mut dots = vec![0; request.buffer];
        let controller = saved::read(bytes).expect("a saved controller");
        controller.row(&before.memory, font, frame, request.row, &mut dots).map(|()| dots)
    };
    let row = row_of(&before.controller);
    for flag in saved::FLAGS.into_iter().filter(|flag| before.controller[*flag] > 1) {
        let mut as_1 = before.controller.clone();
        as_1[flag] = 1;
        if row_of(&as_1) != row {
            counts.hit("flag at # above 1 where 1 would give another answer", &[flag as u8]);
        }
    }
    let by = controller.registers.in_layout().scrolled_by() as u8;
    let (d, asleep) = (controller.registers.d, controller.registers.asleep);
    if asleep {
        counts.hit("asleep with D #, row accepted, scrolled #", &[u8::from(d), u8::from(by != 0)]);
    }
    if !d || asleep {
        return counts.hit("row scrolled by # accepted in a dark display", &[by]);
    }
    if row.iter().flatten().any(|dot| *dot != 0) {
        counts.hit("row scrolled by # with a dot that isn't 0", &[by]);
    }
    for (at, end) in LIMITED {
        if before.controller[at] < end {
            continue;
        }
        counts.hit("field at # outside its layout in a lit row", &[at as u8]);
        if by != 0 {
            counts.hit("field at # outside its layout in a scrolled row", &[at as u8]);
        }
        let mut low_bits = before.controller.clone();
        low_bits[at] &= end.next_power_of_two() - 1;
        if row_of(&low_bits) != row {
            counts.hit("field at # whose low bits would give another answer", &[at as u8]);
        }
    }
    if before.controller[GREY] == 3 {
        counts.hit("grey code 3 in a lit row", &[]);
    }
    for flag in saved::FLAGS.iter().filter(|flag| before.controller[**flag] > 1) {
        counts.hit("flag at # above 1 in a lit row", &[*flag as u8]);
    }
    if request.row == 255 {
        counts.hit("row 255 shown", &[]);
    }
}
