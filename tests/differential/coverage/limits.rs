//! Which limits of a row a frame meets or keeps (01, 'Refusal numbers').

use reference::model::Controller;
use reference::refusals::{tests_of_row, RowRequest, WIDEST};
use reference::registers::{count, Registers};
use support::counts::Counts;

/// Watches the tests on a frame's first row, which answers for the frame, and says whether it is accepted.
pub fn watch(controller: &Controller, memory: usize, font: usize, counts: &mut Counts) -> bool {
    let registers = controller.registers.in_layout();
    let request = RowRequest { memory, font, row: 0, buffer: registers.width() as usize };
    let tests = tests_of_row(&registers, &request);
    let mut applying = tests.iter().filter(|(_, applies)| *applies).map(|(number, _)| *number);
    let first = match applying.next() {
        Some(first) => first,
        None => {
            accepted(&registers, counts);
            return true;
        }
    };
    for later in applying {
        counts.hit("refusal # before #, both apply", &[first, later]);
    }
    refused(first, &registers, counts);
    false
}

fn refused(number: u8, r: &Registers, counts: &mut Counts) {
    let needed = u32::from(r.cr) + 4;
    match number {
        9 if r.fx == 7 => counts.hit("9 by DM alone", &[]),
        9 if r.dm_is_11() => counts.hit("9 by [FX] alone", &[]),
        10 => counts.hit("10 at [FX] #", &[r.fx + 1]),
        11 if r.scrolled_by() != 0 => counts.hit("11, scrolled", &[]),
        11 => counts.hit("11 at # bits", &[r.bits() as u8]),
        13 if u32::from(r.tcr) + 1 == needed && r.scrolled_by() != 0 => counts.hit("13 at TC/R = C/R + 3, scrolled", &[]),
        13 if u32::from(r.tcr) + 1 == needed => counts.hit("13 at TC/R = C/R + 3", &[]),
        13 if needed > 255 && u32::from(r.tcr) >= needed % 256 => counts.hit("13 where C/R + 4 modulo 256 would pass", &[]),
        14 => counts.hit("14 with OV #", &[u8::from(r.ov)]),
        15 => {
            match (r.cry == 0, r.crx > r.fx) {
                (true, false) => counts.hit("15 by CRY 0 alone", &[]),
                (false, true) => counts.hit("15 by [CRX] above [FX] alone", &[]),
                _ => {}
            }
            if !r.d {
                counts.hit("15 with D 0", &[]);
            }
            if r.dm_is_11() {
                counts.hit("15 with no text block", &[]);
            }
        }
        18 => not_scrolled(r, counts),
        _ => {}
    }
}

fn not_scrolled(r: &Registers, counts: &mut Counts) {
    let (by, fx) = (r.scrolled_by(), count(r.fx));
    match (r.grey != 0, by >= fx, r.cr == 0) {
        (true, false, false) => counts.hit("18 by grey alone", &[]),
        (false, true, false) if by == fx => counts.hit("18 by n = [FX] alone, [FX] #", &[fx as u8]),
        (false, true, false) => counts.hit("18 by n above [FX] alone", &[]),
        (false, false, true) => counts.hit("18 by [C/R] 1 alone", &[]),
        _ => {}
    }
    if r.asleep {
        counts.hit("18 asleep", &[]);
    } else if !r.d {
        counts.hit("18 with D 0", &[]);
    }
}

fn accepted(r: &Registers, counts: &mut Counts) {
    if r.scrolled_by() != 0 {
        return scrolled(r, counts);
    }
    if r.d && !r.asleep {
        counts.hit("frame shown at [FX] #", &[r.fx + 1]);
    }
    if r.asleep {
        counts.hit("frame accepted asleep with D #", &[u8::from(r.d)]);
    } else if !r.d {
        counts.hit("frame accepted with D 0", &[]);
    }
    if r.width() == WIDEST {
        counts.hit("width 640 accepted at # bits", &[r.bits() as u8]);
    }
    if u32::from(r.tcr) == u32::from(r.cr) + 4 {
        counts.hit("TC/R = C/R + 4 accepted", &[]);
    }
    if r.fc != 0 && r.crx == r.fx {
        counts.hit("[CRX] = [FX] accepted", &[]);
    }
    if r.fc == 0 && (r.cry == 0 || r.crx > r.fx) {
        counts.hit("what would get 15 accepted with FC 0", &[]);
    }
    if r.ws && r.sl2 < r.sl1 && !r.dm_is_11() {
        counts.hit("what would get 14 accepted with W/S 1", &[]);
    }
}

fn scrolled(r: &Registers, counts: &mut Counts) {
    if r.asleep {
        counts.hit("scrolled frame accepted asleep with D #", &[u8::from(r.d)]);
    } else if !r.d {
        counts.hit("scrolled frame accepted with D 0", &[]);
    }
    match (count(r.cr), count(r.fx)) {
        (2, _) => counts.hit("scrolled frame of 2 columns accepted", &[]),
        // 648 dots before they are scrolled.
        (81, 8) => counts.hit("scrolled frame of 81 columns of 8 accepted", &[]),
        _ => {}
    }
}
