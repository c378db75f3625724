//! The command table: codes, lengths of lists and layouts (01, 'Reset, commands and parameters').

pub const SYSTEM_SET: u8 = 0x40;
pub const SLEEP_IN: u8 = 0x53;
pub const DISP_OFF: u8 = 0x58;
pub const DISP_ON: u8 = 0x59;
pub const SCROLL: u8 = 0x44;
pub const CSRFORM: u8 = 0x5D;
pub const CSRDIR_RIGHT: u8 = 0x4C;
pub const CSRDIR_LEFT: u8 = 0x4D;
pub const CSRDIR_UP: u8 = 0x4E;
pub const CSRDIR_DOWN: u8 = 0x4F;
pub const OVLAY: u8 = 0x5B;
pub const CGRAM_ADR: u8 = 0x5C;
pub const HDOT_SCR: u8 = 0x5A;
pub const GRAY_SCALE: u8 = 0x60;
pub const CSRW: u8 = 0x46;
pub const CSRR: u8 = 0x47;
pub const MWRITE: u8 = 0x42;
pub const MREAD: u8 = 0x43;

pub const CODES: [u8; 18] = [
    SYSTEM_SET, SLEEP_IN, DISP_OFF, DISP_ON, SCROLL, CSRFORM, CSRDIR_RIGHT, CSRDIR_LEFT, CSRDIR_UP, CSRDIR_DOWN, OVLAY,
    CGRAM_ADR, HDOT_SCR, GRAY_SCALE, CSRW, CSRR, MWRITE, MREAD,
];

/// The command that a code begins, named by its first code: DISP OFF and ON pend as one, and so do the four CSRDIR.
pub fn command_of(code: u8) -> Option<u8> {
    match code {
        DISP_OFF | DISP_ON => Some(DISP_OFF),
        CSRDIR_RIGHT..=CSRDIR_DOWN => Some(CSRDIR_RIGHT),
        _ if CODES.contains(&code) => Some(code),
        _ => None,
    }
}

/// Data writes that a command other than MWRITE takes.
pub fn parameter_count(command: u8) -> u8 {
    match command {
        SYSTEM_SET => 8,
        SCROLL => 10,
        CSRFORM | CGRAM_ADR | CSRW => 2,
        DISP_OFF | DISP_ON | OVLAY | HDOT_SCR | GRAY_SCALE => 1,
        _ => 0,
    }
}

/// The layouts of the command table; a bit outside its layout isn't allowed.
pub fn parameter_allowed(command: u8, place: u8, value: u8) -> bool {
    match (command, place) {
        (SYSTEM_SET, 0) => value & 0b1101_0010 == 0b0001_0000,
        (SYSTEM_SET, 1) => value & 0b0111_0000 == 0,
        (SYSTEM_SET, 2) => value & 0b1111_0000 == 0,
        (CSRFORM, 0) => value & 0b1111_0000 == 0,
        (CSRFORM, 1) => value & 0b0111_0000 == 0 && value & 0b0000_1111 != 0,
        (OVLAY, 0) => value & 0b1110_0000 == 0,
        (HDOT_SCR, 0) => value & 0b1111_1000 == 0,
        (GRAY_SCALE, 0) => value <= 2,
        _ => true,
    }
}
