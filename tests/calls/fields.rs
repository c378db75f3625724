//! The fields of a saved controller by the names that a list has for them.

pub struct Field {
    pub name: &'static str,
    place: usize,
    word: bool,
}

const fn byte(name: &'static str, place: usize) -> Field {
    Field { name, place, word: false }
}

const fn word(name: &'static str, place: usize) -> Field {
    Field { name, place, word: true }
}

/// In the order in which `registers` prints them.
pub static FIELDS: [Field; 35] = [
    byte("iv", 4),
    byte("ws", 5),
    byte("m2", 6),
    byte("m0", 7),
    byte("wf", 8),
    byte("fx", 9),
    byte("fy", 10),
    byte("cr", 11),
    byte("tcr", 12),
    byte("lf", 13),
    word("ap", 14),
    byte("d", 16),
    byte("fp", 17),
    byte("fc", 18),
    word("sad1", 19),
    byte("sl1", 21),
    word("sad2", 22),
    byte("sl2", 24),
    word("sad3", 25),
    word("sad4", 27),
    byte("crx", 29),
    byte("cm", 30),
    byte("cry", 31),
    byte("ov", 32),
    byte("dm2", 33),
    byte("dm1", 34),
    byte("mx", 35),
    word("cgram", 36),
    byte("hdot", 38),
    byte("grey", 39),
    word("cursor", 40),
    byte("direction", 42),
    byte("asleep", 1),
    byte("pending", 2),
    byte("place", 3),
];

impl Field {
    pub fn named(name: &str) -> Option<&'static Field> {
        FIELDS.iter().find(|field| field.name == name)
    }

    pub fn fits(&self, value: u16) -> bool {
        self.word || value < 256
    }

    pub fn of(&self, controller: &[u8]) -> u16 {
        let high = if self.word { controller[self.place + 1] } else { 0 };
        u16::from_le_bytes([controller[self.place], high])
    }

    pub fn set(&self, controller: &mut [u8], value: u16) {
        let length = if self.word { 2 } else { 1 };
        controller[self.place..self.place + length].copy_from_slice(&value.to_le_bytes()[..length]);
    }
}
