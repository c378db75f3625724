//! A list of calls on one controller, a line each. Bytes and addresses are hex, all other numbers decimal. A line that starts
//! with `#` says nothing.
//!
//!     memory N               lends cleared memory of N bytes from here on; at first 32,768
//!     store ADDRESS HEX      puts bytes into the lent memory
//!     font HEX               lends this font from here on; at first one of 0 bytes
//!     set NAME=VALUE ..      hands in the controller with these fields, the others as they were
//!     reset                  a reset
//!     command BB             a command write
//!     data BB                a data write
//!     read                   a data read
//!     row ROW FRAME LENGTH   a row into a buffer of LENGTH bytes
//!     registers              every field
//!     sum                    the FNV-1a sum of the lent memory, 32 bits
//!
//! The names are those of `fields.rs`; `pending` is the first code of its row of the command table, 0 for none. What each
//! line answers is said in `runner.rs`.

use crate::fields::Field;
use std::fmt::{self, Display};

pub enum Line {
    Memory(usize),
    Store(u16, Vec<u8>),
    Font(Vec<u8>),
    Set(Vec<(&'static Field, u16)>),
    Reset,
    Command(u8),
    Data(u8),
    Read,
    Row { row: u32, frame: u32, length: usize },
    Registers,
    Sum,
}

/// The lines that say something, each with its number.
pub fn parse(text: &str) -> Result<Vec<(usize, Line)>, String> {
    let numbered = (1..).zip(text.lines()).filter(|(_, line)| !line.starts_with('#'));
    numbered.map(|(number, line)| Ok((number, parse_line(line).ok_or(format!("line {}: unknown: {}", number, line))?))).collect()
}

fn parse_line(line: &str) -> Option<Line> {
    let words: Vec<&str> = line.split(' ').collect();
    Some(match words[..] {
        ["memory", size] => Line::Memory(size.parse().ok()?),
        ["store", address, bytes] => Line::Store(u16::from_str_radix(address, 16).ok()?, hex(bytes)?),
        ["font", bytes] => Line::Font(hex(bytes)?),
        ["set", _, ..] => Line::Set(words[1..].iter().map(|field| assignment(field)).collect::<Option<_>>()?),
        ["reset"] => Line::Reset,
        ["command", byte] => Line::Command(u8::from_str_radix(byte, 16).ok()?),
        ["data", byte] => Line::Data(u8::from_str_radix(byte, 16).ok()?),
        ["read"] => Line::Read,
        ["row", row, frame, length] => {
            Line::Row { row: row.parse().ok()?, frame: frame.parse().ok()?, length: length.parse().ok()? }
        }
        ["registers"] => Line::Registers,
        ["sum"] => Line::Sum,
        _ => return None,
    })
}

fn hex(digits: &str) -> Option<Vec<u8>> {
    if !digits.is_ascii() || digits.len() % 2 == 1 {
        return None;
    }
    (0..digits.len()).step_by(2).map(|place| u8::from_str_radix(&digits[place..place + 2], 16).ok()).collect()
}

fn assignment(text: &str) -> Option<(&'static Field, u16)> {
    let (name, value) = text.split_once('=')?;
    let (field, value) = (Field::named(name)?, value.parse().ok()?);
    Some((field, value)).filter(|_| field.fits(value))
}

impl Display for Line {
    fn fmt(&self, f: &mut fmt::Formatter) -> fmt::Result {
        match self {
            Line::Memory(size) => write!(f, "memory {}", size),
            Line::Store(address, bytes) => write!(f, "store {:04X} {}", address, digits(bytes)),
            Line::Font(bytes) => write!(f, "font {}", digits(bytes)),
            Line::Set(fields) => {
                write!(f, "set")?;
                fields.iter().try_for_each(|(field, value)| write!(f, " {}={}", field.name, value))
            }
            Line::Reset => write!(f, "reset"),
            Line::Command(byte) => write!(f, "command {:02X}", byte),
            Line::Data(byte) => write!(f, "data {:02X}", byte),
            Line::Read => write!(f, "read"),
            Line::Row { row, frame, length } => write!(f, "row {} {} {}", row, frame, length),
            Line::Registers => write!(f, "registers"),
            Line::Sum => write!(f, "sum"),
        }
    }
}

fn digits(bytes: &[u8]) -> String {
    bytes.iter().map(|byte| format!("{:02X}", byte)).collect()
}
