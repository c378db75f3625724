//! What a run must have reached, in the words of `coverage`.

use reference::commands::*;
use support::counts::Event;
use support::sleep::WITH_DATA;

/// Events that need no number.
const PLAIN: [&str; 88] = [
    // Layers and blocks.
    "two layers, SL1 > SL2, before the split",
    "two layers, SL1 > SL2, after the split",
    "three layers",
    "three layers on a row past SL1 or SL2",
    "W/S 1 with OV 1 and DM 11",
    "lit dot of block 1, text",
    "lit dot of block 1, graphics",
    "lit dot of block 3 as layer 1, text",
    "lit dot of block 3 as layer 1, graphics",
    "lit dot of block 3 as layer 2",
    "lit dot of block 3 as layer 3",
    // Cursor.
    "cursor seen in a dark block",
    "cursor seen in the upper half, W/S 1",
    "cursor seen in the lower half, W/S 1",
    "cursor seen at 8000h or above",
    "cursor seen at an address that wrapped",
    "cursor seen in a second cell of its address",
    "cursor leaves dots past [CRX] alone",
    "cursor not seen, CM 0 and [CRY] above [FY]",
    "cursor not seen on a row that SL1 blanks",
    "flashing at a frame number of 80000000h or above",
    "cursor cut by the left edge of a scrolled row",
    "cursor cut by the right edge of a scrolled row",
    "cursor hidden by scrolling",
    // Fetches and glyphs.
    "graphics address wrapped to a byte that isn't 0",
    "text code address wrapped to a byte that isn't 0",
    "CG RAM address wrapped to a byte that isn't 0",
    "graphics fetched at 8000h or above",
    "CG RAM fetched at 8000h or above",
    "glyph of the font, codes 20 to 7F",
    "glyph of the font, codes A0 to DF",
    "glyph of CG RAM, codes 80 to 9F",
    "glyph of CG RAM, codes E0 to FF",
    "glyph of CG RAM with M0 1",
    "blank glyph of codes 00 to 1F",
    "CG RAM row from 8 on is blank, M2 0",
    "CG RAM row from 8 on is read, M2 1",
    "font row from 8 on is blank",
    // Limits of a row.
    "9 by DM alone",
    "9 by [FX] alone",
    "13 at TC/R = C/R + 3",
    "13 where C/R + 4 modulo 256 would pass",
    "TC/R = C/R + 4 accepted",
    "15 by CRY 0 alone",
    "15 by [CRX] above [FX] alone",
    "15 with D 0",
    "15 with no text block",
    "[CRX] = [FX] accepted",
    "what would get 14 accepted with W/S 1",
    "what would get 15 accepted with FC 0",
    "frame accepted with D 0",
    "row 255 shown",
    "11, scrolled",
    "13 at TC/R = C/R + 3, scrolled",
    "18 by grey alone",
    "18 by n above [FX] alone",
    "18 by [C/R] 1 alone",
    "18 with D 0",
    "18 asleep",
    "scrolled frame accepted with D 0",
    "scrolled frame of 2 columns accepted",
    "scrolled frame of 81 columns of 8 accepted",
    // Bus.
    "data with no command pending gets 3",
    "read with no command pending gets 6",
    "memory write at 7FFFh",
    "memory write at 8000h or above gets 7",
    "memory read at 8000h or above gets 7",
    "memory read of a byte that isn't 0",
    "MWRITE without data",
    "run of no byte, MWRITE pending",
    "asleep: an unknown code gets 2",
    "asleep: data gets 3",
    "asleep: a read gets 6",
    "19 with no command pending",
    "frame dark since waking, which DISP ON would light",
    "frame lit after waking and DISP ON",
    // Bus file.
    "file without records",
    "bad: another kind",
    "bad: kind right in its low byte only",
    "bad: length above 65,532, payload cut",
    "bad: length above 65,532, payload whole",
    "payload of 65,532 bytes taken",
    "count of 0 reads",
    "count of 256 reads or more",
    "count of 65,535 reads",
    "row of 640 dots where 640 of the first 65,536 bytes are left",
    "record 256",
    "record 65,536",
];

/// Events that are needed with each of some numbers.
const WITH_NUMBER: [(&str, &[u8]); 53] = [
    ("refusal # printed", &[2, 3, 4, 5, 6, 7, 8, 9, 10, 11, 12, 13, 14, 15, 18, 19]),
    ("command $ accepted", &CODES),
    ("two layers, SL1 < SL2, before the split, OV #", &[0, 1]),
    ("two layers, SL1 < SL2, after the split, OV #", &[0, 1]),
    ("two layers, SL1 = SL2, before the split, OV #", &[0, 1]),
    ("two layers, SL1 = SL2, after the split, OV #", &[0, 1]),
    ("W/S 1, upper half, both layers, OV #", &[0, 1]),
    ("W/S 1, upper half, layer 1 blanked, OV #", &[0, 1]),
    ("W/S 1, upper half, layer 2 blanked, OV #", &[0, 1]),
    ("W/S 1, upper half, both blanked, OV #", &[0, 1]),
    ("W/S 1, lower half, OV #", &[0, 1]),
    ("cursor seen, CM #", &[0, 1]),
    ("cursor seen in block #", &[1, 3]),
    ("cursor with FC # on", &[1, 2, 3]),
    ("cursor with FC # off", &[0, 2, 3]),
    ("cursor with FC 2 at frame # of 32", &[22, 23]),
    ("cursor with FC 3 at frame # of 64", &[44, 45]),
    ("text code fetched at 8000h or above, M0 #", &[0, 1]),
    ("row that leaves memory behind its first column, text #", &[0, 1]),
    ("row that comes back to 0000h behind its first column, text #", &[0, 1]),
    ("glyph of CG RAM with M2 #", &[0, 1]),
    ("frame shown at [FX] #", &[1, 2, 3, 4, 5, 6, 7, 8]),
    ("10 at [FX] #", &[9, 16]),
    ("11 at # bits", &[1, 2]),
    ("width 640 accepted at # bits", &[1, 2]),
    ("14 with OV #", &[0, 1]),
    // From reset no bus file falls asleep with D 0 (#102).
    ("frame accepted asleep with D #", &[1]),
    ("18 by n = [FX] alone, [FX] #", &[1, 2, 3, 4, 5, 6, 7]),
    ("scrolled frame accepted asleep with D #", &[1]),
    ("row of # layers that only its own scrolling gives", &[2, 3]),
    ("cursor moved by direction $", &[CSRDIR_RIGHT, CSRDIR_LEFT, CSRDIR_UP, CSRDIR_DOWN]),
    ("cursor wrapped by direction $", &[CSRDIR_RIGHT, CSRDIR_LEFT, CSRDIR_UP, CSRDIR_DOWN]),
    ("run by direction $ of a whole record", &[CSRDIR_RIGHT, CSRDIR_LEFT, CSRDIR_UP, CSRDIR_DOWN]),
    ("run by direction $ leaves memory", &[CSRDIR_RIGHT, CSRDIR_LEFT, CSRDIR_UP, CSRDIR_DOWN]),
    ("direction $ leaves memory and comes back in one record", &[CSRDIR_RIGHT, CSRDIR_LEFT, CSRDIR_UP, CSRDIR_DOWN]),
    ("run by direction $ with AP 0", &[CSRDIR_UP, CSRDIR_DOWN]),
    ("run by direction $ one address on", &[CSRDIR_UP, CSRDIR_DOWN]),
    ("run by direction $ wraps inside memory", &[CSRDIR_UP, CSRDIR_DOWN]),
    ("CSRR read #", &[1, 2]),
    // The third read of CSRR, and a read of what takes data writes only.
    ("read with $ pending gets 6", &[CSRR, CSRW]),
    ("list of $ cut short by another command", &[SYSTEM_SET, SCROLL, CSRFORM, CGRAM_ADR, CSRW, CSRR]),
    ("byte carried out after one of its record got #", &[7]),
    ("read carried out after one of its record got #", &[7]),
    ("kind # past the first 131,072 bytes of a file", &[1, 2, 3]),
    ("bad: # bytes of a header", &[1, 2, 3]),
    ("bad: wrong length for kind #", &[1, 2, 3]),
    ("bad: payload of kind # cut", &[1, 2, 3]),
    ("asleep: command $ gets 5", &[
        SLEEP_IN, DISP_OFF, DISP_ON, SCROLL, CSRFORM, CSRDIR_RIGHT, CSRDIR_LEFT, CSRDIR_UP, CSRDIR_DOWN, OVLAY, CGRAM_ADR, HDOT_SCR,
        GRAY_SCALE, CSRW, CSRR, MWRITE, MREAD,
    ]),
    ("asleep with D #, SLEEP IN gets 5", &[1]),
    ("asleep with D #, P1 of SYSTEM SET gets 4", &[1]),
    ("waking with D # leaves D 0", &[1]),
    ("awake, P# of SYSTEM SET leaves D 1", &[1, 2, 3, 4, 5, 6, 7, 8]),
    ("19 ends $ before its data", &WITH_DATA),
];

/// The bits of each parameter that its layout fixes.
const FIXED_BITS: [(u8, u8, &[u8]); 8] = [
    (1, SYSTEM_SET, &[7, 6, 4, 1]),
    (2, SYSTEM_SET, &[6, 5, 4]),
    (3, SYSTEM_SET, &[7, 6, 5, 4]),
    (1, CSRFORM, &[7, 6, 5, 4]),
    (2, CSRFORM, &[6, 5, 4]),
    (1, OVLAY, &[7, 6, 5]),
    (1, HDOT_SCR, &[7, 6, 5, 4, 3]),
    (1, GRAY_SCALE, &[7, 6, 5, 4, 3, 2]),
];

/// What a frame can be refused for, in the order of the tests.
const IN_ORDER: [u8; 9] = [8, 9, 10, 18, 11, 12, 13, 14, 15];

pub fn required() -> Vec<Event> {
    let mut all: Vec<Event> = PLAIN.iter().map(|template| (*template, vec![])).collect();
    for (template, numbers) in WITH_NUMBER {
        all.extend(numbers.iter().map(|number| (template, vec![*number])));
    }
    // Everything that takes data, and everything that takes none, with one byte too many.
    for code in CODES.iter().filter(|code| **code != MWRITE) {
        all.push(("data past the list of $ gets 3", vec![*code]));
    }
    for (asleep, d) in [(0, 0), (0, 1), (1, 1)] {
        all.push(("asleep #, 40 leaves D #", vec![asleep, d]));
    }
    for (place, code, bits) in FIXED_BITS {
        all.extend(bits.iter().map(|bit| ("parameter # of $ gets 4 for bit #", vec![place, code, *bit])));
    }
    for (place, code) in [(2, CSRFORM), (1, GRAY_SCALE)] {
        all.push(("parameter # of $ gets 4 for its value", vec![place, code]));
    }
    for block in 1..=4 {
        all.extend([1, 2, 3].iter().map(|code| ("block # with FP # lit", vec![block, *code])));
        all.extend([0, 2, 3].iter().map(|code| ("block # with FP # dark", vec![block, *code])));
        all.extend([22, 23].iter().map(|frame| ("block # with FP 2 at frame # of 32", vec![block, *frame])));
        all.extend([2, 3].iter().map(|frame| ("block # with FP 3 at frame # of 4", vec![block, *frame])));
    }
    for bits in [1, 2, 4] {
        for layers in [2, 3] {
            all.extend((0..4).map(|mx| ("mixed at # bits, MX #, # layers", vec![bits, mx, layers])));
            // At 1 bit a dot priority is OR.
            let last = if bits == 1 { 2 } else { 3 };
            all.extend((1..=last).map(|mx| ("mixed otherwise than OR at # bits, MX #, # layers", vec![bits, mx, layers])));
        }
    }
    for fx in 2..=8 {
        all.extend((1..fx).map(|by| ("row at [FX] # that only scrolling by # gives", vec![fx, by])));
    }
    for (place, first) in IN_ORDER.iter().enumerate() {
        for later in &IN_ORDER[place + 1..] {
            // 12 needs W/S = 1, and 14 W/S = 0.
            if (*first, *later) != (12, 14) {
                all.push(("refusal # before #, both apply", vec![*first, *later]));
            }
        }
    }
    all
}
