//! Writes the records of a bus file (01, 'Bus file and its program').

#[derive(Default)]
pub struct Records {
    pub bytes: Vec<u8>,
}

impl Records {
    /// A record whose length, kind and payload need not fit together.
    pub fn raw(&mut self, length: u16, kind: u16, payload: &[u8]) {
        self.bytes.extend_from_slice(&length.to_le_bytes());
        self.bytes.extend_from_slice(&kind.to_le_bytes());
        self.bytes.extend_from_slice(payload);
    }

    pub fn command(&mut self, code: u8, data: &[u8]) {
        let mut payload = vec![code];
        payload.extend_from_slice(data);
        self.raw(payload.len() as u16, 1, &payload);
    }

    pub fn word_command(&mut self, code: u8, word: u16) {
        self.command(code, &word.to_le_bytes());
    }

    pub fn read(&mut self, count: u16) {
        self.raw(2, 2, &count.to_le_bytes());
    }

    pub fn show(&mut self, frame: u32) {
        self.raw(4, 3, &frame.to_le_bytes());
    }
}
