//! Records, good and bad, and the lines of a file (01, 'Bus file and its program').

use super::bus::BusWatch;
use super::waking::WakingWatch;
use super::{limits, rows, runs};
use reference::busfile::{next_record, Machine, Record, LONGEST_PAYLOAD};
use support::counts::Counts;
use support::sleep;

/// A program that reads a file in parts has read more than one by then.
const PART: usize = 131_072;

/// A program may gather its output in a buffer of this length.
const OUTPUT_BUFFER: usize = 65_536;

/// Watches a whole file, and what is to be printed of it.
pub fn watch_file(bus: &[u8], font: &[u8], printed: &str, counts: &mut Counts) {
    let mut watch = FileWatch { machine: Machine::new(), bus: BusWatch::default(), waking: WakingWatch::default(), font };
    if bus.is_empty() {
        counts.hit("file without records", &[]);
    }
    let mut rest = bus;
    let mut number = 0;
    while !rest.is_empty() {
        let (record, after) = match next_record(rest) {
            Some(found) => found,
            None => {
                bad_record(rest, counts);
                break;
            }
        };
        number += 1;
        match number {
            256 => counts.hit("record 256", &[]),
            65_536 => counts.hit("record 65,536", &[]),
            _ => {}
        }
        if bus.len() - rest.len() > PART {
            counts.hit("kind # past the first 131,072 bytes of a file", &[kind(record)]);
        }
        watch.record(record, counts);
        rest = after;
    }
    watch_lines(printed, counts);
}

fn kind(record: Record) -> u8 {
    match record {
        Record::Command(_) => 1,
        Record::Read(_) => 2,
        Record::Show(_) => 3,
    }
}

/// Why the record at the start of the bytes is bad.
fn bad_record(bytes: &[u8], counts: &mut Counts) {
    if bytes.len() < 4 {
        return counts.hit("bad: # bytes of a header", &[bytes.len() as u8]);
    }
    let length = usize::from(u16::from_le_bytes([bytes[0], bytes[1]]));
    let whole = bytes.len() - 4 >= length;
    match u16::from_le_bytes([bytes[2], bytes[3]]) {
        1..=3 if length > LONGEST_PAYLOAD && whole => counts.hit("bad: length above 65,532, payload whole", &[]),
        1..=3 if length > LONGEST_PAYLOAD => counts.hit("bad: length above 65,532, payload cut", &[]),
        kind @ 1..=3 if (kind == 1 && length > 0) || (kind == 2 && length == 2) || (kind == 3 && length == 4) => {
            counts.hit("bad: payload of kind # cut", &[kind as u8])
        }
        kind @ 1..=3 => counts.hit("bad: wrong length for kind #", &[kind as u8]),
        kind if (1..=3).contains(&(kind % 256)) => counts.hit("bad: kind right in its low byte only", &[]),
        _ => counts.hit("bad: another kind", &[]),
    }
}

struct FileWatch<'a> {
    machine: Machine,
    bus: BusWatch,
    waking: WakingWatch,
    font: &'a [u8],
}

impl FileWatch<'_> {
    fn record(&mut self, record: Record, counts: &mut Counts) {
        match record {
            Record::Command(payload) => self.writes(payload, counts),
            Record::Read(count) => self.reads(count, counts),
            Record::Show(frame) => {
                let Machine { controller, memory } = &self.machine;
                if limits::watch(controller, memory.len(), self.font.len(), counts) {
                    rows::watch_frame(controller, memory, self.font, frame, counts);
                    self.waking.frame(&self.machine, self.font, frame, counts);
                }
            }
        }
    }

    fn writes(&mut self, payload: &[u8], counts: &mut Counts) {
        if payload.len() == LONGEST_PAYLOAD {
            counts.hit("payload of 65,532 bytes taken", &[]);
        }
        let mut refused_before = 0;
        let mut commanded = self.machine.controller;
        let mut answers = vec![];
        for (index, byte) in payload.iter().enumerate() {
            let before = self.machine.controller;
            let answer = self.machine.bus_write(index, *byte);
            let after = self.machine.controller;
            if index == 0 {
                self.bus.command_write(&before, *byte, answer, counts);
                sleep::command_write(&before, *byte, answer, &after, counts);
                commanded = after;
            } else {
                self.bus.data_write(&before, *byte, answer, counts);
                sleep::data_write(&before, answer, &after, counts);
                answers.push(answer);
            }
            self.waking.write(&before, &after);
            match answer {
                Err(number) => refused_before = number,
                Ok(()) if refused_before != 0 => counts.hit("byte carried out after one of its record got #", &[refused_before]),
                Ok(()) => {}
            }
        }
        runs::watch(&commanded, &answers, counts);
    }

    fn reads(&mut self, count: u16, counts: &mut Counts) {
        match count {
            0 => counts.hit("count of 0 reads", &[]),
            65_535 => counts.hit("count of 65,535 reads", &[]),
            256..=65_534 => counts.hit("count of 256 reads or more", &[]),
            _ => {}
        }
        let mut refused_before = 0;
        for _ in 0..count {
            let before = self.machine.controller;
            let answer = self.machine.controller.data_read(&self.machine.memory);
            self.bus.data_read(&before, answer, counts);
            match answer {
                Err(number) => refused_before = number,
                Ok(_) if refused_before != 0 => counts.hit("read carried out after one of its record got #", &[refused_before]),
                Ok(_) => {}
            }
        }
    }
}

fn watch_lines(printed: &str, counts: &mut Counts) {
    for line in printed.lines().filter(|line| line.starts_with("refused ")) {
        let number = line.rsplit(' ').next().and_then(|word| word.parse().ok());
        counts.hit("refusal # printed", &[number.expect("a refusal has a number")]);
    }
    // Of the row that starts there the buffer has room for the dots and not for the line end.
    let start = OUTPUT_BUFFER - 640;
    if printed.len() > OUTPUT_BUFFER && printed.as_bytes()[start - 1] == b'\n' && printed[start..].find('\n') == Some(640) {
        counts.hit("row of 640 dots where 640 of the first 65,536 bytes are left", &[]);
    }
}
