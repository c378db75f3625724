//! Counts what the lists reached: the state before a line, the line, and its answer.

use crate::list::Line;
use crate::runner::Runner;
use host::handed_in::{LIMITED, WRONG_FONTS, WRONG_MEMORIES};
use host::saved;
use reference::commands::*;
use reference::model::Controller;
use support::counts::Counts;

/// The state before a line that a count may want.
pub struct Before {
    bytes: Vec<u8>,
    controller: Controller,
    memory: usize,
    font: usize,
}

impl Before {
    pub fn of(runner: &Runner) -> Before {
        let bytes = runner.controller().to_vec();
        let controller = saved::read(&bytes).expect("a list never makes a controller something else");
        Before { bytes, controller, memory: runner.memory().len(), font: runner.font().len() }
    }
}

pub fn line(before: &Before, line: &Line, answer: &str, counts: &mut Counts) {
    let number: u8 = match answer.split(' ').next().map(str::parse) {
        Some(Ok(number)) => number,
        // `registers` and `sum` answer no number.
        _ => return,
    };
    match line {
        Line::Reset if before.controller != Controller::reset() => counts.hit("reset of another controller", &[]),
        Line::Command(_) => counts.hit("command answers #", &[number]),
        Line::Data(_) => data(before, number, counts),
        Line::Read => read(before, number, answer, counts),
        Line::Row { .. } => row(before, number, answer, counts),
        _ => {}
    }
}

fn place_of(sizes: &[usize], size: usize) -> u8 {
    sizes.iter().position(|wrong| *wrong == size).expect("one of the wrong sizes") as u8
}

fn data(before: &Before, number: u8, counts: &mut Counts) {
    counts.hit("data answers #", &[number]);
    let Controller { pending, place, registers } = before.controller;
    match number {
        0 if pending == MWRITE => counts.hit("byte written, direction #", &[registers.direction as u8]),
        0 => counts.hit("parameter # of $ stored", &[place + 1, pending]),
        1 => counts.hit("data, wrong memory #", &[place_of(&WRONG_MEMORIES, before.memory)]),
        _ => {}
    }
}

fn read(before: &Before, number: u8, answer: &str, counts: &mut Counts) {
    counts.hit("read answers #", &[number]);
    match (number, before.controller.pending) {
        (0, CSRR) => counts.hit("read # of CSRR", &[before.controller.place + 1]),
        (0, _) if answer != "0 00" => counts.hit("byte read that isn't 0, direction #", &[before.controller.registers.direction as u8]),
        (1, _) => counts.hit("read, wrong memory #", &[place_of(&WRONG_MEMORIES, before.memory)]),
        _ => {}
    }
}

fn row(before: &Before, number: u8, answer: &str, counts: &mut Counts) {
    counts.hit("row answers #", &[number]);
    let registers = before.controller.registers.in_layout();
    match number {
        1 => counts.hit("row, wrong memory #", &[place_of(&WRONG_MEMORIES, before.memory)]),
        8 => counts.hit("row, wrong font #", &[place_of(&WRONG_FONTS, before.font)]),
        0 if registers.asleep => counts.hit("row accepted, asleep", &[]),
        0 if !registers.d => counts.hit("row accepted, display off", &[]),
        0 => {
            if answer[2..].contains(|digit| digit != '0') {
                counts.hit("lit row, grey code #", &[registers.grey]);
                counts.hit("lit row, scrolled by #", &[registers.hdot]);
            }
            for (at, _) in LIMITED.iter().filter(|(at, end)| before.bytes[*at] >= *end) {
                counts.hit("row shown, field at # outside its layout", &[*at as u8]);
            }
            for flag in saved::FLAGS.iter().filter(|flag| before.bytes[**flag] > 1) {
                counts.hit("row shown, flag at # above 1", &[*flag as u8]);
            }
        }
        _ => {}
    }
}
