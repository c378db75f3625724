//! Frames after waking, dark until DISP ON is sent (#102).

use reference::busfile::Machine;
use reference::model::Controller;
use support::counts::Counts;

/// The display since the chip woke.
#[derive(Clone, Copy, Default)]
enum Display {
    #[default]
    NotWoken,
    Off,
    OnAgain,
}

#[derive(Default)]
pub struct WakingWatch {
    display: Display,
}

impl WakingWatch {
    pub fn write(&mut self, before: &Controller, after: &Controller) {
        let (was, is) = (&before.registers, &after.registers);
        self.display = match self.display {
            _ if is.asleep => Display::NotWoken,
            _ if was.asleep => Display::Off,
            Display::Off if is.d => Display::OnAgain,
            same => same,
        };
    }

    /// Watches an accepted frame.
    pub fn frame(&self, machine: &Machine, font: &[u8], frame: u32, counts: &mut Counts) {
        match self.display {
            Display::Off if !is_lit(machine, font, frame) && is_lit(&with_display_on(machine), font, frame) => {
                counts.hit("frame dark since waking, which DISP ON would light", &[])
            }
            Display::OnAgain if is_lit(machine, font, frame) => counts.hit("frame lit after waking and DISP ON", &[]),
            _ => {}
        }
    }
}

fn is_lit(machine: &Machine, font: &[u8], frame: u32) -> bool {
    machine.frame(font, frame).map_or(false, |(_, rows)| rows.iter().flatten().any(|dot| *dot != 0))
}

fn with_display_on(machine: &Machine) -> Machine {
    let mut machine = machine.clone();
    machine.controller.registers.d = true;
    machine
}
