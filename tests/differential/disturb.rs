//! Disturbances on the bus: bad, short and long parameter lists, unknown codes, sleep, reads, walks of the cursor and runs.

use support::random::Random;
use support::records::Records;
use support::sleep::WITH_DATA;
use reference::commands::*;

/// Frame numbers at the edges of the periods 4, 32 and 64, and large ones.
const FRAMES: [u32; 22] = [
    0, 1, 2, 3, 4, 22, 22, 23, 23, 31, 32, 44, 44, 45, 45, 63, 64, 86, 87, 0x8000_0016, 0xFFFF_FFD7, 0xFFFF_FFFF,
];

pub fn show(records: &mut Records, random: &mut Random) {
    let frame = if random.chance(85) { random.pick(&FRAMES) } else { random.next() as u32 };
    records.show(frame);
}

/// A value for a place that is allowed, or one that isn't where there is one. Mostly a single bit is then wrong.
fn parameter(code: u8, place: u8, allowed: bool, random: &mut Random) -> u8 {
    let fits = |value: &u8| parameter_allowed(code, place, *value) == allowed;
    let fitting: Vec<u8> = (0..=255).filter(fits).collect();
    if fitting.is_empty() {
        return random.byte();
    }
    if !allowed && random.chance(80) {
        let near = parameter(code, place, true, random) ^ 1 << random.below(8);
        if fits(&near) {
            return near;
        }
    }
    random.pick(&fitting)
}

/// Sends a command, its list sometimes cut short, made too long, or with a value that isn't allowed.
pub fn send(code: u8, mut list: Vec<u8>, percent: u32, records: &mut Records, random: &mut Random) {
    if random.chance(percent) {
        match random.below(3) {
            0 if !list.is_empty() => list.truncate(random.below(list.len() as u32) as usize),
            1 if !list.is_empty() => {
                let place = random.below(list.len().min(3) as u32) as u8;
                list[usize::from(place)] = parameter(code, place, false, random);
            }
            _ => {
                let extra = random.between(1, 3);
                list.extend(random.bytes(extra));
            }
        }
    }
    records.command(code, &list);
}

fn unknown(random: &mut Random) -> u8 {
    let near = random.pick(&[0x00, 0x3F, 0x41, 0x45, 0x48, 0x4B, 0x50, 0x52, 0x54, 0x57, 0x5E, 0x5F, 0x61, 0xC0, 0xFF]);
    let any = random.byte();
    if CODES.contains(&any) || random.chance(40) {
        near
    } else {
        any
    }
}

/// One disturbance, and perhaps a frame after it.
pub fn disturb(records: &mut Records, random: &mut Random) {
    match random.below(12) {
        0 => {
            for _ in 0..random.between(1, 5) {
                let data = random.below(3);
                records.command(unknown(random), &random.bytes(data));
            }
        }
        1 => sleep(records, random),
        2 => reads(records, random),
        3 | 4 => walk(records, random),
        5 => {
            let code = random.pick(&CODES);
            send(code, small_list(code, random), 60, records, random);
        }
        6 => bad_parameters(records, random),
        7 => records.command(DISP_OFF, &[random.byte()]),
        8 => records.command(DISP_ON, &[random.byte()]),
        9 => records.command(OVLAY, &[random.below(32) as u8]),
        10 => run(records, random),
        _ => {
            let code = random.pick(&[SYSTEM_SET, SCROLL, SCROLL, CSRFORM, CGRAM_ADR, CSRW]);
            let mut list = small_list(code, random);
            list.truncate(random.between(1, list.len() as u32) as usize);
            records.command(code, &list);
        }
    }
    if random.chance(50) {
        show(records, random);
    }
}

/// Values that aren't allowed, one a record, each with the allowed ones before it and anything after it.
fn bad_parameters(records: &mut Records, random: &mut Random) {
    for _ in 0..random.between(1, 4) {
        let (code, place) = random.pick(&[
            (SYSTEM_SET, 0), (SYSTEM_SET, 1), (SYSTEM_SET, 2), (CSRFORM, 0), (CSRFORM, 1), (OVLAY, 0), (HDOT_SCR, 0), (GRAY_SCALE, 0),
        ]);
        let mut list = small_list(code, random);
        list[usize::from(place)] = parameter(code, place, false, random);
        records.command(code, &list);
    }
}

/// A list that the command accepts and that leaves the picture small.
fn small_list(code: u8, random: &mut Random) -> Vec<u8> {
    let mut list: Vec<u8> = (0..parameter_count(code)).map(|place| parameter(code, place, true, random)).collect();
    if code == SYSTEM_SET {
        list[3] %= 12;
        list[5] %= 20;
    }
    list
}

/// SLEEP IN with the display off, mostly while a command wants data or has something to read; data and a read after it (#102).
fn refused_sleep(records: &mut Records, random: &mut Random) {
    records.command(DISP_OFF, &[]);
    if random.chance(85) {
        let code = random.pick(&WITH_DATA);
        let mut list = small_list(code, random);
        list.truncate(random.below(list.len().max(1) as u32) as usize);
        records.command(code, &list);
    } else {
        records.command(unknown(random), &[]);
    }
    let data = random.below(3);
    records.command(SLEEP_IN, &random.bytes(data));
    records.read(1);
}

fn sleep(records: &mut Records, random: &mut Random) {
    if random.chance(50) {
        refused_sleep(records, random);
    }
    if random.chance(95) {
        records.command(DISP_ON, &[]);
    }
    let data = random.below(3);
    records.command(SLEEP_IN, &random.bytes(data));
    for _ in 0..random.between(1, 5) {
        match random.below(7) {
            0 => {
                let code = random.pick(&CODES[1..]);
                records.command(code, &small_list(code, random));
            }
            1 => records.command(unknown(random), &[random.byte()]),
            2 => records.command(SLEEP_IN, &[]),
            3 => records.read(random.below(3) as u16),
            4 => show(records, random),
            5 => {
                let p1 = parameter(SYSTEM_SET, 0, false, random);
                records.command(SYSTEM_SET, &[p1, random.byte()]);
            }
            _ => {
                records.command(SYSTEM_SET, &[]);
                records.read(1);
            }
        }
    }
    if random.chance(85) {
        let p1 = parameter(SYSTEM_SET, 0, true, random);
        records.command(SYSTEM_SET, &[p1]);
        show(records, random);
        if random.chance(70) {
            records.command(DISP_ON, &[]);
            show(records, random);
        }
    }
}

fn reads(records: &mut Records, random: &mut Random) {
    match random.below(4) {
        0 => {
            records.command(CSRR, &[]);
            records.read(random.between(1, 4) as u16);
        }
        1 => {
            records.command(CSRR, &[random.byte()]);
            records.read(1);
        }
        2 => {
            records.command(MREAD, &[]);
            let many = random.chance(10);
            records.read(if many { random.pick(&[256, 300, 65_535, 65_535]) } else { random.below(6) } as u16);
        }
        _ => records.read(random.below(3) as u16),
    }
}

/// Moves the cursor across an edge of memory or of the addresses with writes or reads.
fn walk(records: &mut Records, random: &mut Random) {
    let near = random.pick(&[0x0000, 0x7FFF, 0x8000, 0xFFFF, 0x0028]);
    let start = if random.chance(80) { near + random.below(3) - 1 } else { random.below(65_536) };
    records.word_command(CSRW, start as u16);
    records.command(random.pick(&[CSRDIR_RIGHT, CSRDIR_LEFT, CSRDIR_UP, CSRDIR_DOWN]), &[]);
    let steps = random.between(1, 6);
    if random.chance(60) {
        records.command(MWRITE, &random.bytes(steps));
    } else {
        records.command(MREAD, &[]);
        records.read(steps as u16);
    }
    if random.chance(60) {
        records.command(CSRR, &[]);
        records.read(random.between(2, 3) as u16);
    }
    if random.chance(60) {
        records.word_command(CSRW, start as u16);
        records.command(MREAD, &[]);
        records.read(steps as u16);
    }
}

/// A record of data bytes that reaches, leaves or wraps round memory in one run, and reads where it started and went.
fn run(records: &mut Records, random: &mut Random) {
    let ap: u16 = random.pick(&[0, 1, 0x10, 0x4000, 0x7FFF, 0x8000, 0x8001, 0xFFFF]);
    let mut list = small_list(SYSTEM_SET, random);
    list[6..].copy_from_slice(&ap.to_le_bytes());
    records.command(SYSTEM_SET, &list);
    // Moving by 1, memory is left for 32,768 bytes.
    let ((direction, start), count) = if random.chance(8) {
        (random.pick(&[(CSRDIR_RIGHT, 0x7FFD), (CSRDIR_LEFT, 0x0002)]), 32_774)
    } else {
        let direction = random.pick(&[CSRDIR_RIGHT, CSRDIR_LEFT, CSRDIR_UP, CSRDIR_DOWN]);
        let start = random.pick(&[0x0000, 0x0001, 0x0020, 0x7FF0, 0x7FFE, 0x7FFF, 0x8000, 0xFFFE, 0xFFFF]);
        ((direction, start), random.below(40))
    };
    records.command(direction, &[]);
    records.word_command(CSRW, start);
    records.command(MWRITE, &random.bytes(count));
    records.command(CSRR, &[]);
    records.read(2);
    records.word_command(CSRW, start);
    records.command(MREAD, &[]);
    records.read(40);
}
