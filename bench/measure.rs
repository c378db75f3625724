//! One process' share of the times: the medians of its rounds, a line for each row of the table that is a time.

use crate::timing::median;
use crate::{bytes, rows, setups};

const ROUNDS: u32 = 80;

/// Prints a line for each set-up in frames, for each in bands, and for each record: our time, the slower composer's (or nothing), and fill's
/// or copy's. The rounds go through all of them in turn, so that what disturbs the machine disturbs all alike.
pub fn print() {
    let (setups, records) = (setups::setups(), bytes::records());
    let mut of_frames = vec![Samples::default(); setups.len()];
    let mut of_bands = of_frames.clone();
    let mut of_bytes = vec![Samples::default(); records.len()];
    for round in 0..ROUNDS {
        for (index, setup) in setups.iter().enumerate() {
            let times = rows::measure(setup, round);
            of_frames[index].add(times.ours_in_frames, times.one_dot_at_a_time, times.fill);
            of_bands[index].add(times.ours_in_a_band, times.one_dot_at_a_time, times.fill);
        }
        for (samples, record) in of_bytes.iter_mut().zip(&records) {
            let times = bytes::measure(record);
            samples.add(times.ours, f64::NAN, times.copy);
        }
    }
    for Samples { ours, slower, base } in [of_frames, of_bands, of_bytes].into_iter().flatten() {
        println!("{} {} {}", median(ours), median(slower), median(base));
    }
}

#[derive(Clone, Default)]
struct Samples {
    ours: Vec<f64>,
    slower: Vec<f64>,
    base: Vec<f64>,
}

impl Samples {
    fn add(&mut self, ours: f64, slower: f64, base: f64) {
        self.ours.push(ours);
        self.slower.push(slower);
        self.base.push(base);
    }
}
