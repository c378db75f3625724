//! Carries out the lines of a list on one controller, over the library or over the reference.

use crate::fields::FIELDS;
use crate::list::Line;
use host::functions::Functions;
use host::guarded::{Guarded, Lend};
use host::saved;
use reference::refusals::MEMORY_SIZE;

pub struct Runner {
    functions: &'static Functions,
    lend: Lend,
    controller: Guarded,
    memory: Guarded,
    font: Guarded,
}

/// What no dot is.
const NO_DOT: u8 = 0xC3;

impl Runner {
    /// With a controller that is reset, whatever its bytes were.
    pub fn new(functions: &'static Functions, lend: Lend) -> Runner {
        let mut controller = lend(&[0xFF; saved::LENGTH]);
        (functions.reset)(controller.lent());
        Runner { functions, lend, controller, memory: lend(&[0; MEMORY_SIZE]), font: lend(&[]) }
    }

    pub fn controller(&self) -> &[u8] {
        self.controller.content()
    }

    pub fn memory(&self) -> &[u8] {
        self.memory.content()
    }

    pub fn font(&self) -> &[u8] {
        self.font.content()
    }

    /// Carries out a line. Its answer is `NUMBER` for reset, command and data; `NUMBER VALUE` for read, the value in hex;
    /// `NUMBER` for row and, if that is 0, the dots, a hex digit each; `NAME=VALUE ..` for registers; eight hex digits for sum;
    /// and nothing for the others. An error is a line that cannot be carried out, or a call that touched what it may not.
    pub fn carry_out(&mut self, line: &Line) -> Result<Option<String>, String> {
        let Functions { reset, command_write, data_write, .. } = *self.functions;
        let answer = match line {
            Line::Memory(size) => {
                self.memory = (self.lend)(&vec![0; *size]);
                None
            }
            Line::Store(address, bytes) => {
                let area = usize::from(*address)..usize::from(*address) + bytes.len();
                self.memory.lent().get_mut(area).ok_or("past the end of memory")?.copy_from_slice(bytes);
                None
            }
            Line::Font(bytes) => {
                self.font = (self.lend)(bytes);
                None
            }
            Line::Set(fields) => {
                fields.iter().for_each(|(field, value)| field.set(self.controller.lent(), *value));
                None
            }
            Line::Reset => Some(reset(self.controller.lent()).to_string()),
            Line::Command(byte) => Some(command_write(self.controller.lent(), *byte).to_string()),
            Line::Data(byte) => Some(data_write(self.controller.lent(), self.memory.lent(), *byte).to_string()),
            Line::Read => Some(self.read()?),
            Line::Row { row, frame, length } => Some(self.row(*row, *frame, *length)?),
            Line::Registers => {
                let fields = FIELDS.iter().map(|field| format!("{}={}", field.name, field.of(self.controller())));
                Some(fields.collect::<Vec<String>>().join(" "))
            }
            Line::Sum => Some(format!("{:08X}", sum(self.memory()))),
        };
        self.controller.guards_stand("controller")?;
        self.memory.guards_stand("memory")?;
        self.font.guards_stand("font")?;
        Ok(answer)
    }

    fn read(&mut self) -> Result<String, String> {
        let before = self.memory().to_vec();
        let answer = (self.functions.data_read)(self.controller.lent(), self.memory.content());
        stands("memory", &self.memory, &before)?;
        Ok(format!("{} {:02X}", answer % 256, answer / 256))
    }

    fn row(&self, row: u32, frame: u32, length: usize) -> Result<String, String> {
        let before = [&self.controller, &self.memory, &self.font].map(|lent| lent.content().to_vec());
        let untouched = vec![NO_DOT; length];
        let mut dots = (self.lend)(&untouched);
        let number = (self.functions.row)(self.controller(), self.memory(), self.font(), frame, row, dots.lent());
        dots.guards_stand("dots")?;
        stands("controller", &self.controller, &before[0])?;
        stands("memory", &self.memory, &before[1])?;
        stands("font", &self.font, &before[2])?;
        if number != 0 {
            stands("dots of a refused row", &dots, &untouched)?;
            return Ok(number.to_string());
        }
        let digits: String = dots.content().iter().map(|dot| format!("{:X}", dot)).collect();
        Ok(format!("0 {}", digits))
    }
}

fn stands(name: &str, lent: &Guarded, before: &[u8]) -> Result<(), String> {
    if lent.content() == before {
        Ok(())
    } else {
        Err(format!("the lent {} changed", name))
    }
}

/// FNV-1a.
fn sum(bytes: &[u8]) -> u32 {
    bytes.iter().fold(0x811C_9DC5, |sum, byte| (sum ^ u32::from(*byte)).wrapping_mul(0x0100_0193))
}
