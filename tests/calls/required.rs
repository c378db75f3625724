//! What a run over seeds must have reached, in the words of `watch.rs`. Fields and flags go by their place in the saved form.

use host::handed_in::{D, LIMITED};
use host::saved;
use reference::commands::*;
use support::counts::Event;

pub fn required() -> Vec<Event> {
    let plain = ["reset of another controller", "row accepted, asleep", "row accepted, display off"];
    let mut all: Vec<Event> = plain.iter().map(|template| (*template, vec![])).collect();
    let mut each = |template: &'static str, numbers: &mut dyn Iterator<Item = u8>| {
        all.extend(numbers.map(|number| (template, vec![number])));
    };
    each("command answers #", &mut [0, 2, 5, 19].into_iter());
    each("data answers #", &mut [0, 1, 3, 4, 7].into_iter());
    each("read answers #", &mut [0, 1, 6, 7].into_iter());
    each("row answers #", &mut [0, 1].into_iter().chain(8..=18));
    for template in ["data, wrong memory #", "read, wrong memory #", "row, wrong memory #"] {
        each(template, &mut (0..5));
    }
    each("row, wrong font #", &mut (0..4));
    each("read # of CSRR", &mut (1..=2));
    each("byte written, direction #", &mut (0..4));
    each("byte read that isn't 0, direction #", &mut (0..4));
    each("lit row, grey code #", &mut (0..=2));
    each("lit row, scrolled by #", &mut (0..=7));
    each("row shown, field at # outside its layout", &mut LIMITED.iter().map(|field| field.0 as u8));
    // D above 1 is read as 0, so the display is off.
    each("row shown, flag at # above 1", &mut saved::FLAGS.iter().filter(|flag| **flag != D).map(|flag| *flag as u8));
    for code in CODES.into_iter().filter(|code| command_of(*code) == Some(*code)) {
        all.extend((1..=parameter_count(code)).map(|place| ("parameter # of $ stored", vec![place, code])));
    }
    all
}
