//! A bus file and a font from a seed: a set-up whose rows are accepted, then frames, disturbances and damage.

use crate::damage::damage;
use crate::disturb::{disturb, send, show};
use support::limits;
use support::random::Random;
use support::records::Records;
use support::setup::Setup;
use reference::commands::*;

pub struct Case {
    pub bus: Vec<u8>,
    /// None where there is to be no file.
    pub font: Option<Vec<u8>>,
}

pub fn generate(seed: u64) -> Case {
    let mut random = Random::new(seed);
    let usual_font = random.chance(94);
    let font = if usual_font { Some(random.bytes(1_280)) } else { odd_font(&mut random) };
    let mut records = Records::default();
    match random.below(100) {
        0 => {}
        1 => records.bytes = random.bytes(40),
        2 => many_records(&mut records, &mut random),
        3 => long_file(&mut records, &mut random),
        4 => wide_frame(&mut records, &mut random),
        _ => picture(!usual_font, &mut records, &mut random),
    }
    if !records.bytes.is_empty() && random.chance(14) {
        damage(&mut records, &mut random);
    }
    Case { bus: records.bytes, font }
}

fn odd_font(random: &mut Random) -> Option<Vec<u8>> {
    let length = random.pick(&[0, 1, 1_279, 1_281, 2_560]);
    if random.chance(25) {
        None
    } else {
        Some(random.bytes(length))
    }
}

/// More records than one byte can count or, seldom, than two can.
fn many_records(records: &mut Records, random: &mut Random) {
    let count = if random.chance(40) { 65_550 } else { random.between(250, 270) };
    for _ in 0..count {
        records.command(random.pick(&[CSRDIR_RIGHT, CSRDIR_LEFT]), &[]);
    }
    disturb(records, random);
}

/// Records of very different lengths, so that a program that reads in parts meets a cut at any place of a record.
fn long_file(records: &mut Records, random: &mut Random) {
    picture(false, records, random);
    while records.bytes.len() < 300_000 {
        let count = random.pick(&[1, 100, 3_000, 65_531]);
        records.word_command(CSRW, random.word());
        records.command(MWRITE, &random.bytes(count));
        show(records, random);
        records.command(MREAD, &[]);
        records.read(3);
    }
}

/// A frame of 640 x 256 dots, and before it just so many lines that one of its rows starts 640 bytes before the first
/// 65,536 bytes of the output end: a program that buffers as many has no room for that row and its line end.
fn wide_frame(records: &mut Records, random: &mut Random) {
    records.command(SYSTEM_SET, &[0x10, 7, 7, 79, 83, 255, 80, 0]);
    records.command(SCROLL, &[0, 0, 255, 0, 0x40, 255]);
    records.command(OVLAY, &[0x0C | random.pick(&[0, 1, 3])]);
    records.command(DISP_ON, &[0x14]);
    records.word_command(CSRW, 0);
    records.command(MWRITE, &random.bytes(20_480));
    let (unknown, data) = lines_before(7);
    for _ in 0..unknown {
        records.command(0xFF, &[]);
    }
    records.command(0xFF, &vec![0; data]);
    records.show(0);
}

/// How many records of an unknown code, and how many data bytes in one more, give the lines before the wide frame.
fn lines_before(first_record: usize) -> (usize, usize) {
    let code = |record: usize| format!("refused {} 1 2\n", record).len();
    let byte = |record: usize, place: usize| format!("refused {} {} 3\n", record, place).len();
    for unknown in 0..641 {
        let record = first_record + unknown;
        let codes: usize = (first_record..=record).map(code).sum();
        let frame = format!("frame {} 0 640 256\n", record + 1).len();
        for data in 0..641 {
            let bytes: usize = (2..data + 2).map(|place| byte(record, place)).sum();
            if (65_536 - codes - bytes - frame) % 641 == 640 {
                return (unknown, data);
            }
        }
    }
    unreachable!("the lengths of the lines have no common divisor with 641")
}

fn picture(odd_font: bool, records: &mut Records, random: &mut Random) {
    if random.chance(4) {
        disturb(records, random);
        show(records, random);
    }
    let mut setup = Setup::choose(random);
    let beyond = random.chance(if odd_font { 60 } else { 20 });
    if beyond {
        limits::exceed(&mut setup, random);
    } else if random.chance(5) {
        limits::widen(&mut setup, random);
    } else if random.chance(3) {
        limits::crowd(&mut setup, random);
    } else if random.chance(2) {
        limits::heighten(&mut setup, random);
    }
    let left_out = if beyond { 20 } else { 2 };
    for (code, list) in setup.register_commands(random) {
        if code != CSRFORM || !random.chance(left_out) {
            send(code, list, 4, records, random);
        }
    }
    setup.fill_memory(records);
    for _ in 0..random.between(2, 4) {
        show(records, random);
    }
    for _ in 0..random.below(3) {
        nudge(&setup, records, random);
    }
    for _ in 0..random.below(6) {
        disturb(records, random);
    }
}

/// Sends a part of one of the set-up's lists again, its last byte changed a little, and shows what that did.
fn nudge(setup: &Setup, records: &mut Records, random: &mut Random) {
    let mut commands = setup.register_commands(random);
    let (code, mut list) = commands.swap_remove(random.below(commands.len() as u32) as usize);
    list.truncate(random.between(1, list.len() as u32) as usize);
    if let Some(last) = list.last_mut() {
        *last = last.wrapping_add(random.between(1, 4) as u8);
    }
    records.command(code, &list);
    show(records, random);
    if random.chance(30) {
        records.command(CSRW, &[random.byte()]);
        records.command(CSRR, &[]);
        records.read(2);
    }
}
