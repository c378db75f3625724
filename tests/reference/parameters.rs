//! What each parameter of the command table sets (01, 'Reset, commands and parameters'). A field is replaced whole,
//! whatever a caller had handed in.

use super::commands::*;
use super::registers::Registers;

/// Stores a parameter that is allowed, at a place of its command's list.
pub fn store(r: &mut Registers, command: u8, place: u8, value: u8) {
    let bit = |number: u8| value >> number & 1 == 1;
    match (command, place) {
        (SYSTEM_SET, 0) => {
            r.iv = bit(5);
            r.ws = bit(3);
            r.m2 = bit(2);
            r.m0 = bit(0);
        }
        (SYSTEM_SET, 1) => {
            r.wf = bit(7);
            r.fx = value & 0x0F;
        }
        (SYSTEM_SET, 2) => r.fy = value & 0x0F,
        (SYSTEM_SET, 3) => r.cr = value,
        (SYSTEM_SET, 4) => r.tcr = value,
        (SYSTEM_SET, 5) => r.lf = value,
        (SYSTEM_SET, 6) => set_low(&mut r.ap, value),
        (SYSTEM_SET, 7) => set_high(&mut r.ap, value),
        (DISP_OFF, 0) => {
            r.fp = value >> 2;
            r.fc = value & 3;
        }
        (SCROLL, 0) => set_low(&mut r.sad[0], value),
        (SCROLL, 1) => set_high(&mut r.sad[0], value),
        (SCROLL, 2) => r.sl1 = value,
        (SCROLL, 3) => set_low(&mut r.sad[1], value),
        (SCROLL, 4) => set_high(&mut r.sad[1], value),
        (SCROLL, 5) => r.sl2 = value,
        (SCROLL, 6) => set_low(&mut r.sad[2], value),
        (SCROLL, 7) => set_high(&mut r.sad[2], value),
        (SCROLL, 8) => set_low(&mut r.sad[3], value),
        (SCROLL, 9) => set_high(&mut r.sad[3], value),
        (CSRFORM, 0) => r.crx = value & 0x0F,
        (CSRFORM, 1) => {
            r.cm = bit(7);
            r.cry = value & 0x0F;
        }
        (OVLAY, 0) => {
            r.ov = bit(4);
            r.dm2 = bit(3);
            r.dm1 = bit(2);
            r.mx = value & 3;
        }
        (CGRAM_ADR, 0) => set_low(&mut r.cgram, value),
        (CGRAM_ADR, 1) => set_high(&mut r.cgram, value),
        (HDOT_SCR, 0) => r.hdot = value,
        (GRAY_SCALE, 0) => r.grey = value,
        (CSRW, 0) => set_low(&mut r.cursor, value),
        (CSRW, 1) => set_high(&mut r.cursor, value),
        _ => unreachable!("a place of the list of a command"),
    }
}

fn set_low(word: &mut u16, value: u8) {
    *word = *word & 0xFF00 | u16::from(value);
}

fn set_high(word: &mut u16, value: u8) {
    *word = *word & 0x00FF | u16::from(value) << 8;
}
