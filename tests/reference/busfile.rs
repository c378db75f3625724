//! The records of a bus file and the lines that the program prints (01, 'Bus file and its program').

use super::model::Controller;
use super::refusals::MEMORY_SIZE;

pub const LONGEST_PAYLOAD: usize = 65_532;

/// A good record.
#[derive(Clone, Copy, PartialEq, Debug)]
pub enum Record<'a> {
    Command(&'a [u8]),
    Read(u16),
    Show(u32),
}

/// The first record of the bytes and the bytes after it, or nothing where it is bad.
pub fn next_record(bytes: &[u8]) -> Option<(Record<'_>, &[u8])> {
    if bytes.len() < 4 {
        return None;
    }
    let length = usize::from(u16::from_le_bytes([bytes[0], bytes[1]]));
    let kind = u16::from_le_bytes([bytes[2], bytes[3]]);
    if length > LONGEST_PAYLOAD || bytes.len() - 4 < length {
        return None;
    }
    let (payload, after) = bytes[4..].split_at(length);
    let record = match (kind, payload) {
        (1, [_, ..]) => Record::Command(payload),
        (2, [low, high]) => Record::Read(u16::from_le_bytes([*low, *high])),
        (3, [a, b, c, d]) => Record::Show(u32::from_le_bytes([*a, *b, *c, *d])),
        _ => return None,
    };
    Some((record, after))
}

/// What records act on: at first a controller as reset leaves it, and cleared memory.
#[derive(Clone)]
pub struct Machine {
    pub controller: Controller,
    pub memory: Vec<u8>,
}

impl Machine {
    pub fn new() -> Machine {
        Machine { controller: Controller::reset(), memory: vec![0; MEMORY_SIZE] }
    }

    /// Byte `index` of a command record, from 0: a command write, then data writes.
    pub fn bus_write(&mut self, index: usize, byte: u8) -> Result<(), u8> {
        if index == 0 {
            self.controller.command_write(byte)
        } else {
            self.controller.data_write(&mut self.memory, byte)
        }
    }

    /// A frame's width and its rows; or a refusal, in place of the frame.
    pub fn frame(&self, font: &[u8], frame: u32) -> Result<(u32, Vec<Vec<u8>>), u8> {
        let (width, rows) = self.controller.frame_size();
        let row = |number: u32| {
            let mut dots = vec![0; width as usize];
            self.controller.row(&self.memory, font, frame, number, &mut dots).map(|()| dots)
        };
        Ok((width, (0..rows).map(row).collect::<Result<_, _>>()?))
    }
}

/// What the program prints for a bus file and a font.
pub fn run(bus: &[u8], font: &[u8]) -> String {
    let mut machine = Machine::new();
    let mut lines = String::new();
    let mut rest = bus;
    let mut good = 0;
    while !rest.is_empty() {
        let number = good + 1;
        match next_record(rest) {
            Some((record, after)) => {
                lines.push_str(&carry_out(&mut machine, number, record, font));
                good = number;
                rest = after;
            }
            None => {
                lines.push_str(&format!("bad {}\n", number));
                break;
            }
        }
    }
    lines.push_str(&format!("end {}\n", good));
    lines
}

/// The lines of one record. What follows a refusal in it is still carried out.
fn carry_out(machine: &mut Machine, number: u32, record: Record, font: &[u8]) -> String {
    let refused = |byte: usize, refusal: u8| format!("refused {} {} {}\n", number, byte, refusal);
    let mut lines = String::new();
    match record {
        Record::Command(payload) => {
            for (index, byte) in payload.iter().enumerate() {
                if let Err(refusal) = machine.bus_write(index, *byte) {
                    lines.push_str(&refused(index + 1, refusal));
                }
            }
        }
        Record::Read(count) => {
            for index in 1..=usize::from(count) {
                match machine.controller.data_read(&machine.memory) {
                    Ok(value) => lines.push_str(&format!("read {} {} {:02X}\n", number, index, value)),
                    Err(refusal) => lines.push_str(&refused(index, refusal)),
                }
            }
        }
        Record::Show(frame) => match machine.frame(font, frame) {
            Ok((width, rows)) => {
                lines.push_str(&format!("frame {} {} {} {}\n", number, frame, width, rows.len()));
                for row in rows {
                    lines.extend(row.iter().map(|dot| char::from(b"0123456789ABCDEF"[usize::from(*dot)])));
                    lines.push('\n');
                }
            }
            Err(refusal) => lines.push_str(&refused(0, refusal)),
        },
    }
    lines
}
