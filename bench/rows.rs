//! Rows: the library's beside those of the reference, which composes one dot at a time, and beside filling the buffer.

use crate::setups::Setup;
use crate::timing::{nanoseconds, unknown};
use host::{calls, saved};

/// Times in nanoseconds a dot.
pub struct Times {
    pub ours_in_frames: f64,
    pub ours_in_a_band: f64,
    pub one_dot_at_a_time: f64,
    pub fill: f64,
}

/// A band is one of so many parts of a frame: a sample of one dot at a time is then too short to be cut in two by other work.
const BANDS: u32 = 8;

/// So many whole frames of ours are a sample too: a band of ours is over in microseconds, right after other code has run, and the clock itself
/// is some hundredths of it.
const FRAMES: u32 = 4;

/// How often a band is filled in a round: filling is over too soon for the clock.
const FILLS: usize = 100;

/// One round: the rows each way, one after the other. A library that refuses them has no time: one from before rows were
/// scrolled takes a scrolled row to be wider.
pub fn measure(setup: &Setup, round: u32) -> Times {
    let (width, rows) = setup.size();
    let height = rows / BANDS;
    let first = round % BANDS * height;
    let band = || first..first + height;
    let dots = |rows: u32| width as f64 * f64::from(rows);
    let controller = saved::write(&setup.controller);
    let mut buffer = vec![0; width];
    let mut ours = |row: u32| {
        calls::row(unknown(&controller), &setup.memory, &setup.font, 0, row, &mut buffer);
        unknown(&buffer);
    };
    let ours_of_band = nanoseconds(|| band().for_each(&mut ours));
    let ours_of_frames = nanoseconds(|| (0..FRAMES).flat_map(|_| 0..rows).for_each(&mut ours));
    let one_dot_at_a_time = nanoseconds(|| {
        for row in band() {
            // That the row is accepted is seen by the check.
            let _ = unknown(&setup.controller).row(&setup.memory, &setup.font, 0, row, &mut buffer);
            unknown(&buffer);
        }
    });
    let fill = nanoseconds(|| {
        for turn in 0..FILLS * height as usize {
            buffer.fill(unknown(turn as u8));
            unknown(&buffer);
        }
    });
    // Asked only now, so as not to run the code once before it is measured.
    let accepted = calls::row(&controller, &setup.memory, &setup.font, 0, 0, &mut buffer) == 0;
    let of_accepted = |time: f64| if accepted { time } else { f64::NAN };
    Times {
        ours_in_frames: of_accepted(ours_of_frames / dots(FRAMES * rows)),
        ours_in_a_band: of_accepted(ours_of_band / dots(height)),
        one_dot_at_a_time: one_dot_at_a_time / dots(height),
        fill: fill / dots(height) / FILLS as f64,
    }
}

/// Whether both give the same rows, dot for dot, and accept them.
pub fn agree(setup: &Setup, frame: u32) -> bool {
    let (width, rows) = setup.size();
    let controller = saved::write(&setup.controller);
    (0..rows).all(|row| {
        // Contents that no row has.
        let (mut ours, mut theirs) = (vec![0xEE; width], vec![0xDD; width]);
        let number = calls::row(&controller, &setup.memory, &setup.font, frame, row, &mut ours);
        let answer = setup.controller.row(&setup.memory, &setup.font, frame, row, &mut theirs);
        number == 0 && answer == Ok(()) && ours == theirs
    })
}
