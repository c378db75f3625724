//! Bytes that are lent to a call, with guard bytes on both sides that no call may touch.

/// How bytes are lent: `Guarded::new`, or `Guarded::exact`.
pub type Lend = fn(&[u8]) -> Guarded;

/// How a test is to lend, and its other arguments: `--exact` comes before them.
pub fn lending<'a>(arguments: &'a [&'a str]) -> (Lend, &'a [&'a str]) {
    match arguments {
        ["--exact", others @ ..] => (Guarded::exact, others),
        _ => (Guarded::new, arguments),
    }
}

const GUARD: usize = 64;

pub struct Guarded {
    bytes: Vec<u8>,
    /// Guard bytes on each side.
    guard: usize,
}

fn guard(place: usize) -> u8 {
    0xA5 ^ place as u8
}

impl Guarded {
    pub fn new(content: &[u8]) -> Guarded {
        let mut bytes: Vec<u8> = (0..GUARD).map(guard).collect();
        bytes.extend_from_slice(content);
        bytes.extend((0..GUARD).map(guard));
        Guarded { bytes, guard: GUARD }
    }

    /// Without guards, in an allocation of exactly this size: valgrind sees what goes past it, and guards would hide that.
    pub fn exact(content: &[u8]) -> Guarded {
        Guarded { bytes: content.to_vec(), guard: 0 }
    }

    fn end(&self) -> usize {
        self.bytes.len() - self.guard
    }

    pub fn content(&self) -> &[u8] {
        &self.bytes[self.guard..self.end()]
    }

    pub fn lent(&mut self) -> &mut [u8] {
        let end = self.end();
        &mut self.bytes[self.guard..end]
    }

    /// Whether the bytes beside the content stand.
    pub fn guards_stand(&self, name: &str) -> Result<(), String> {
        let guards = [&self.bytes[..self.guard], &self.bytes[self.end()..]];
        if guards.iter().any(|side| (0..self.guard).any(|place| side[place] != guard(place))) {
            return Err(format!("a byte beside the lent {} was touched", name));
        }
        Ok(())
    }

    /// What differs from the expected content, or from the guards.
    pub fn difference(&self, name: &str, expected: &[u8]) -> Result<(), String> {
        self.guards_stand(name)?;
        if self.content() == expected {
            return Ok(());
        }
        let place = (0..expected.len()).find(|place| self.content()[*place] != expected[*place]).unwrap_or(0);
        let (got, wanted) = (self.content()[place], expected[place]);
        Err(format!("byte {} of the {}: reference {:02X}, library {:02X}", place, name, wanted, got))
    }
}
