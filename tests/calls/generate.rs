//! A list from a seed: a host sets a controller up, draws, writes and reads, and hands in what no bus brings about.

use crate::fields::FIELDS;
use crate::list::Line;
use crate::runner::Runner;
use host::functions::REFERENCE;
use host::guarded::Guarded;
use host::handed_in::{self, Row, WRONG_FONTS, WRONG_MEMORIES};
use host::saved;
use reference::commands::*;
use reference::refusals::{FONT_SIZE, MEMORY_SIZE};
use support::limits;
use support::random::Random;
use support::setup::Setup;

/// The text of a list of 50 to 300 lines and some more, as what was begun is ended.
pub fn generate(seed: u64) -> String {
    let mut random = Random::new(seed);
    let length = random.between(50, 300) as usize;
    let mut list = List { random, runner: Runner::new(&REFERENCE, Guarded::new), lines: vec![] };
    if list.random.chance(20) {
        // The font of 0 bytes.
        list.set_up();
        list.rows();
    }
    list.font(FONT_SIZE);
    list.set_up();
    while list.lines.len() < length {
        match list.random.below(16) {
            0..=2 => list.set_up(),
            3..=5 => list.hand_in_fields(),
            6 | 7 => list.hand_in_pending(),
            8..=10 => list.traffic(),
            11 | 12 => list.memory_access(),
            13 => list.sleep(),
            14 => list.wrong_size(),
            _ => list.add(Line::Reset),
        }
        list.rows();
        list.add(Line::Registers);
        list.add(Line::Sum);
    }
    list.lines.concat()
}

struct List {
    random: Random,
    /// The reference after the lines so far.
    runner: Runner,
    lines: Vec<String>,
}

impl List {
    fn add(&mut self, line: Line) {
        self.runner.carry_out(&line).expect("a line that can be carried out");
        self.lines.push(format!("{}\n", line));
    }

    fn command(&mut self, code: u8, data: &[u8]) {
        self.add(Line::Command(code));
        data.iter().for_each(|byte| self.add(Line::Data(*byte)));
    }

    fn store(&mut self, address: u16, bytes: &[u8]) {
        let room = self.runner.memory().len().saturating_sub(usize::from(address));
        if room > 0 {
            self.add(Line::Store(address, bytes[..room.min(bytes.len())].to_vec()));
        }
    }

    fn font(&mut self, size: usize) {
        let bytes = self.random.bytes(size as u32);
        self.add(Line::Font(bytes));
    }

    /// Hands in a controller: sets the fields in which it differs.
    fn hand_in(&mut self, controller: &[u8]) {
        let now = self.runner.controller();
        let differing = FIELDS.iter().filter(|field| field.of(controller) != field.of(now));
        let mut fields: Vec<_> = differing.map(|field| (field, field.of(controller))).collect();
        self.random.shuffle(&mut fields);
        if !fields.is_empty() {
            self.add(Line::Set(fields));
        }
    }

    fn set_up(&mut self) {
        let random = &mut self.random;
        let mut setup = Setup::choose(random);
        match random.below(12) {
            0 | 1 => limits::exceed(&mut setup, random),
            2 => limits::heighten(&mut setup, random),
            3 => limits::widen(&mut setup, random),
            4 => limits::crowd(&mut setup, random),
            _ => {}
        }
        for (address, bytes) in [&setup.data, &setup.text] {
            self.store(*address, bytes);
        }
        if self.random.chance(50) {
            let machine = setup.machine(&mut self.random);
            return self.hand_in(&saved::write(&machine.controller));
        }
        for (code, list) in setup.register_commands(&mut self.random) {
            self.command(code, &list);
        }
        self.command(CSRW, &setup.cursor.to_le_bytes());
    }

    fn rows(&mut self) {
        for _ in 0..self.random.between(1, 6) {
            let Row { row, frame, length } = handed_in::row(self.runner.controller(), &mut self.random);
            self.add(Line::Row { row, frame, length });
        }
    }

    /// Fields outside their layout, and now and then a flag above 1.
    fn hand_in_fields(&mut self) {
        let mut controller = self.runner.controller().to_vec();
        handed_in::fields(&mut controller, &mut self.random);
        if self.random.chance(30) {
            handed_in::flag(&mut controller, &mut self.random);
        }
        self.hand_in(&controller);
    }

    /// Any pending command and place, and bytes for it.
    fn hand_in_pending(&mut self) {
        let mut controller = self.runner.controller().to_vec();
        handed_in::pending(&mut controller, &mut self.random);
        let value = if self.random.chance(50) { handed_in::parameter(&mut controller, &mut self.random) } else { self.random.byte() };
        self.hand_in(&controller);
        self.add(Line::Data(value));
        self.reads();
    }

    fn reads(&mut self) {
        for _ in 0..self.random.below(4) {
            self.add(Line::Read);
        }
    }

    /// Commands with data, now and then more or less than they want.
    fn traffic(&mut self) {
        for _ in 0..self.random.between(1, 5) {
            let code = if self.random.chance(90) { self.random.pick(&CODES) } else { self.random.byte() };
            let wanted = u32::from(parameter_count(code));
            let count = if self.random.chance(60) { wanted } else { self.random.below(wanted + 2) };
            let data: Vec<u8> = (0..count as u8).map(|place| handed_in::value(code, place, &mut self.random)).collect();
            self.command(code, &data);
            self.reads();
        }
    }

    /// Writes, and reads of what was written, near an edge of memory.
    fn memory_access(&mut self) {
        let direction = self.random.pick(&[CSRDIR_RIGHT, CSRDIR_LEFT, CSRDIR_UP, CSRDIR_DOWN]);
        let anywhere = self.random.word();
        let cursor = self.random.pick(&[0x0000, 0x0002, 0x7FFD, 0x7FFF, 0x8000, 0xFFFE, anywhere]);
        let count = self.random.between(2, 8);
        self.command(direction, &[]);
        self.command(CSRW, &cursor.to_le_bytes());
        let bytes = self.random.bytes(count);
        self.command(MWRITE, &bytes);
        self.command(CSRR, &[]);
        self.reads();
        self.command(CSRW, &cursor.to_le_bytes());
        self.command(MREAD, &[]);
        for _ in 0..count {
            self.add(Line::Read);
        }
    }

    /// Asleep with a display that is on; some set-up wakes it later.
    fn sleep(&mut self) {
        self.command(DISP_ON, &[]);
        self.command(SLEEP_IN, &[]);
        self.traffic();
    }

    /// Memory or font of another size, and then of its own again.
    fn wrong_size(&mut self) {
        if self.random.chance(40) {
            // No line lends a font of 0 bytes.
            let size = self.random.pick(&WRONG_FONTS[1..]);
            self.font(size);
            self.rows();
            return self.font(FONT_SIZE);
        }
        let size = self.random.pick(&WRONG_MEMORIES);
        self.add(Line::Memory(size));
        self.traffic();
        self.memory_access();
        self.rows();
        self.add(Line::Sum);
        self.add(Line::Memory(MEMORY_SIZE));
        for address in [0x0000, 0x7F00] {
            let bytes = self.random.bytes(256);
            self.store(address, &bytes);
        }
    }
}
