//! The stored fields of the controller (01, 'Reset, commands and parameters').

#[derive(Clone, Copy, PartialEq, Debug)]
pub enum Direction {
    Right,
    Left,
    Up,
    Down,
}

/// Every stored field but the pending command, each as wide as a caller may hand it in. IV and WF are stored and read by
/// nothing.
#[derive(Clone, Copy, PartialEq, Debug)]
pub struct Registers {
    pub asleep: bool,
    pub iv: bool,
    /// W/S of SYSTEM SET.
    pub ws: bool,
    pub m2: bool,
    pub m0: bool,
    pub wf: bool,
    pub fx: u8,
    pub fy: u8,
    pub cr: u8,
    pub tcr: u8,
    pub lf: u8,
    pub ap: u16,
    /// D, set by the codes 58 and 59, and cleared by waking (#102).
    pub d: bool,
    /// FP5 to FP0.
    pub fp: u8,
    pub fc: u8,
    /// SAD1 to SAD4.
    pub sad: [u16; 4],
    pub sl1: u8,
    pub sl2: u8,
    pub crx: u8,
    pub cm: bool,
    pub cry: u8,
    pub ov: bool,
    pub dm2: bool,
    pub dm1: bool,
    pub mx: u8,
    pub cgram: u16,
    pub hdot: u8,
    /// The GRAY SCALE code: 0, 1, 2 mean 1, 2, 4 bits a dot.
    pub grey: u8,
    pub cursor: u16,
    pub direction: Direction,
}

/// The count that a code stands for: the manual's brackets.
pub fn count(code: u8) -> u32 {
    u32::from(code) + 1
}

impl Registers {
    pub fn reset() -> Registers {
        Registers {
            asleep: false,
            iv: false,
            ws: false,
            m2: false,
            m0: false,
            wf: false,
            fx: 0,
            fy: 0,
            cr: 0,
            tcr: 0,
            lf: 0,
            ap: 0,
            d: false,
            fp: 0,
            fc: 0,
            sad: [0; 4],
            sl1: 0,
            sl2: 0,
            crx: 0,
            cm: false,
            cry: 0,
            ov: false,
            dm2: false,
            dm1: false,
            mx: 0,
            cgram: 0,
            hdot: 0,
            grey: 0,
            cursor: 0,
            direction: Direction::Right,
        }
    }

    /// The fields as they are read: one outside its layout, or a grey code of 3, is read as 0.
    pub fn in_layout(&self) -> Registers {
        let below = |end: u8, field: u8| if field < end { field } else { 0 };
        Registers {
            fx: below(16, self.fx),
            fy: below(16, self.fy),
            fp: below(64, self.fp),
            fc: below(4, self.fc),
            crx: below(16, self.crx),
            cry: below(16, self.cry),
            mx: below(4, self.mx),
            hdot: below(8, self.hdot),
            grey: below(3, self.grey),
            ..*self
        }
    }

    // What follows is asked of registers in their layout.

    /// Bits a dot.
    pub fn bits(&self) -> u32 {
        1 << self.grey
    }

    /// DM = 11: blocks 1 and 3 are graphics.
    pub fn dm_is_11(&self) -> bool {
        self.dm2 && self.dm1
    }

    /// Dots that one column of a row gives.
    pub fn dots_of_column(&self) -> u32 {
        if self.grey == 0 {
            count(self.fx)
        } else {
            8 / self.bits()
        }
    }

    /// How many dots to the left a row is scrolled: the HDOT SCR value (#101).
    pub fn scrolled_by(&self) -> u32 {
        u32::from(self.hdot)
    }

    /// The width of the row that is composed without scrolling.
    pub fn unscrolled_width(&self) -> u32 {
        count(self.cr) * self.dots_of_column()
    }

    /// A row that is scrolled is a column narrower.
    pub fn width(&self) -> u32 {
        match self.scrolled_by() {
            0 => self.unscrolled_width(),
            _ => (count(self.cr) - 1) * self.dots_of_column(),
        }
    }

    pub fn rows(&self) -> u32 {
        count(self.lf)
    }
}
