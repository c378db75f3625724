//! A saved controller as the reference reads and writes it: 48 bytes, words little-endian, a flag 0 or 1.

use reference::commands::command_of;
use reference::model::{Controller, NONE};
use reference::registers::{Direction, Registers};

pub const LENGTH: usize = 48;
pub const FORMAT: u8 = 1;

pub const PENDING: usize = 2;
pub const PLACE: usize = 3;
pub const DIRECTION: usize = 42;
/// Reserved; a call writes 0 there.
pub const RESERVED: std::ops::Range<usize> = 43..48;

/// asleep; IV, W/S, M2, M0, WF; D; CM; OV, DM2, DM1.
pub const FLAGS: [usize; 11] = [1, 4, 5, 6, 7, 8, 16, 30, 32, 33, 34];

/// The controller that bytes are, or nothing where they are no saved controller. A flag above 1, a direction above 3 and a
/// pending code that is no command's are read as 0; the other fields keep any byte.
pub fn read(bytes: &[u8]) -> Option<Controller> {
    if bytes.len() != LENGTH || bytes[0] != FORMAT {
        return None;
    }
    let flag = |at: usize| bytes[at] == 1;
    let word = |at: usize| u16::from_le_bytes([bytes[at], bytes[at + 1]]);
    let registers = Registers {
        asleep: flag(1),
        iv: flag(4),
        ws: flag(5),
        m2: flag(6),
        m0: flag(7),
        wf: flag(8),
        fx: bytes[9],
        fy: bytes[10],
        cr: bytes[11],
        tcr: bytes[12],
        lf: bytes[13],
        ap: word(14),
        d: flag(16),
        fp: bytes[17],
        fc: bytes[18],
        sad: [word(19), word(22), word(25), word(27)],
        sl1: bytes[21],
        sl2: bytes[24],
        crx: bytes[29],
        cm: flag(30),
        cry: bytes[31],
        ov: flag(32),
        dm2: flag(33),
        dm1: flag(34),
        mx: bytes[35],
        cgram: word(36),
        hdot: bytes[38],
        grey: bytes[39],
        cursor: word(40),
        direction: match bytes[DIRECTION] {
            1 => Direction::Left,
            2 => Direction::Up,
            3 => Direction::Down,
            _ => Direction::Right,
        },
    };
    Some(Controller { registers, pending: command_of(bytes[PENDING]).unwrap_or(NONE), place: bytes[PLACE] })
}

pub fn write(controller: &Controller) -> Vec<u8> {
    let r = &controller.registers;
    let low = |word: u16| word as u8;
    let high = |word: u16| (word >> 8) as u8;
    let bytes = [
        FORMAT,
        u8::from(r.asleep),
        controller.pending,
        controller.place,
        u8::from(r.iv),
        u8::from(r.ws),
        u8::from(r.m2),
        u8::from(r.m0),
        u8::from(r.wf),
        r.fx,
        r.fy,
        r.cr,
        r.tcr,
        r.lf,
        low(r.ap),
        high(r.ap),
        u8::from(r.d),
        r.fp,
        r.fc,
        low(r.sad[0]),
        high(r.sad[0]),
        r.sl1,
        low(r.sad[1]),
        high(r.sad[1]),
        r.sl2,
        low(r.sad[2]),
        high(r.sad[2]),
        low(r.sad[3]),
        high(r.sad[3]),
        r.crx,
        u8::from(r.cm),
        r.cry,
        u8::from(r.ov),
        u8::from(r.dm2),
        u8::from(r.dm1),
        r.mx,
        low(r.cgram),
        high(r.cgram),
        r.hdot,
        r.grey,
        low(r.cursor),
        high(r.cursor),
        r.direction as u8,
        0,
        0,
        0,
        0,
        0,
    ];
    let bytes: [u8; LENGTH] = bytes;
    bytes.to_vec()
}
