//! What a run must have reached, in the words of `watch.rs` and `send.rs`. Fields and flags go by their place in the saved form,
//! functions by their place in the header.

use host::handed_in::*;
use host::saved;
use reference::commands::*;
use reference::model::NONE;
use support::counts::Event;
use support::sleep::WITH_DATA;

const PLAIN: [&str; 36] = [
    "direction above 3 moves right",
    "pending code of no command wants nothing",
    "parameter stored for a code that is not the first of its row",
    "place past the reads of CSRR",
    "MWRITE at a place that isn't 0",
    "MREAD of a byte that isn't 0 at a place that isn't 0",
    "SLEEP IN accepted",
    "19 with no command pending",
    "no bytes and no answers",
    "no bytes and an answer",
    "bytes and no answers",
    "an answer too few",
    "an answer too many",
    "send that refuses nothing",
    "send of a command alone",
    "send of a refused command alone",
    "asleep, send of MWRITE with data",
    "data writes that start outside memory",
    "send that wakes",
    "send with a parameter that gets 4 behind one that is taken",
    "send with 3 behind a parameter that gets 4",
    "frame size of no dots a row",
    "frame size wider than a row may be",
    "frame size of 256 rows",
    "15 since CRY is read as 0",
    "18 since FX is read as 0",
    "16 at row [L/F]",
    "16 at the last number of 32 bits",
    "16 where the row modulo 65,536 would pass",
    "16 where the row modulo 256 would pass",
    "17 for an empty buffer",
    "17 for a byte too few",
    "17 for a byte too many",
    "17 for a buffer of the unscrolled width",
    "row 255 shown",
    "grey code 3 in a lit row",
];

/// Commands with parameters, and how many.
const LISTS: [(u8, u8); 9] = [
    (SYSTEM_SET, 8), (DISP_OFF, 1), (SCROLL, 10), (CSRFORM, 2), (OVLAY, 1), (CGRAM_ADR, 2), (HDOT_SCR, 1), (GRAY_SCALE, 1), (CSRW, 2),
];

pub fn required() -> Vec<Event> {
    let mut all: Vec<Event> = PLAIN.iter().map(|template| (*template, vec![])).collect();
    let mut each = |template: &'static str, numbers: &mut dyn Iterator<Item = u8>| {
        all.extend(numbers.map(|number| (template, vec![number])));
    };
    each("answer #", &mut (0..=19));
    for template in ["function # on another format", "function # on a controller of another length"] {
        each(template, &mut (1..=7));
    }
    // All that write a controller back but reset, which reads nothing of what was there.
    for template in ["function # writes a flag above 1 back as 0", "function # writes reserved bytes back as 0"] {
        each(template, &mut (2..=5));
    }
    each("CSRR read #", &mut (1..=2));
    for call in [
        "1 on a data write, wrong memory #", "1 on data writes, wrong memory #", "1 on a data read, wrong memory #",
        "1 on a row, wrong memory #",
    ] {
        each(call, &mut (0..5));
    }
    for template in [
        "data writes all stored, direction #", "data writes that leave memory, direction #",
        "data writes that come into memory, direction #",
    ] {
        each(template, &mut (0..4));
    }
    each("send of $ with data", &mut CODES.into_iter());
    each("send of a command that gets #, with data", &mut [2, 5, 19].into_iter());
    each("send ends $", &mut CODES.into_iter().filter(|code| command_of(*code) == Some(*code)).chain([NONE]));
    for template in ["send of the whole list of $", "send of more than $ wants"] {
        each(template, &mut LISTS.iter().map(|list| list.0).chain([DISP_ON]));
    }
    each("frame size, scrolled by #", &mut (0..=7));
    each("frame size, grey code #", &mut (0..=2));
    each("frame size, field at # whose low bits would give another", &mut [FX, HDOT, GREY].iter().map(|field| *field as u8));
    each("8, wrong font #", &mut (0..4));
    for template in ["asleep with D #, SLEEP IN gets 5", "asleep with D #, P1 of SYSTEM SET gets 4", "waking with D # leaves D 0"] {
        each(template, &mut (0..=1));
    }
    each("awake, P# of SYSTEM SET leaves D 1", &mut (1..=8));
    each("19 ends $ before its data", &mut WITH_DATA.into_iter());
    each("asleep, $ has nothing to read", &mut [CSRR, MREAD].into_iter());
    each("asleep, $ wants nothing", &mut LISTS.iter().map(|list| list.0).filter(|command| *command != SYSTEM_SET).chain([MWRITE]));
    each("place past the list of $ wants nothing", &mut LISTS.iter().map(|list| list.0));
    let fields = || LIMITED.iter().map(|field| field.0 as u8);
    each("field at # outside its layout in a lit row", &mut fields());
    each("field at # outside its layout replaced by a parameter", &mut fields());
    // CRY is read as 0 only where FC is 00, or else the row gets 15.
    each("field at # whose low bits would give another answer", &mut fields().filter(|field| *field != CRY as u8));
    // FX read as 0 gets 18, and HDOT SCR read as 0 scrolls nothing.
    each("field at # outside its layout in a scrolled row", &mut [FY, FP, FC, CRX, CRY, MX, GREY].iter().map(|field| *field as u8));
    each("row scrolled by # with a dot that isn't 0", &mut (0..=7));
    each("row scrolled by # accepted in a dark display", &mut (0..=7));
    each("flag at # above 1, written back as 0", &mut saved::FLAGS.iter().map(|flag| *flag as u8));
    // D above 1 is read as 0, so the display is dark.
    let seen = saved::FLAGS.iter().filter(|flag| **flag != D);
    each("flag at # above 1 in a lit row", &mut seen.map(|flag| *flag as u8));
    // Nothing reads IV and WF.
    let read = saved::FLAGS.iter().filter(|flag| ![IV, WF].contains(flag));
    each("flag at # above 1 where 1 would give another answer", &mut read.map(|flag| *flag as u8));
    for (command, parameters) in LISTS {
        all.extend((1..=parameters).map(|place| ("parameter # of $ stored", vec![place, command])));
    }
    for d in 0..=1 {
        all.extend((2..=8).map(|parameter| ("asleep with D #, P# of SYSTEM SET stored", vec![d, parameter])));
        all.extend((0..=1).map(|scrolled| ("asleep with D #, row accepted, scrolled #", vec![d, scrolled])));
        all.extend((0..=1).map(|asleep| ("asleep #, 40 leaves D #", vec![asleep, d])));
    }
    for (first, later) in [(1, 8), (1, 16), (1, 17), (16, 17)] {
        all.push(("refusal # before #, both apply", vec![first, later]));
    }
    for first in (8..=15).chain([18]) {
        all.extend([16, 17].iter().map(|later| ("refusal # before #, both apply", vec![first, *later])));
    }
    all
}
