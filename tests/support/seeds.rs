//! A test over seeds: a case for each, and counts of what the cases reached.

use crate::counts::{Counts, Event};
use std::ops::Range;

/// Runs a case for each seed, prints each difference with its seed and then the counts, and where `required` is given, what
/// was not reached. The last line is 'N passed, M failed': N counts cases that compared equal and required events that were
/// reached. Answers whether nothing failed.
pub fn run(
    seeds: Range<u64>,
    required: Option<Vec<Event>>,
    mut case: impl FnMut(u64, &mut Counts) -> Result<(), String>,
) -> bool {
    let mut counts = Counts::default();
    let (mut passed, mut failed) = (0, 0);
    for seed in seeds {
        match case(seed, &mut counts) {
            Ok(()) => passed += 1,
            Err(difference) => {
                failed += 1;
                println!("seed {}: {}", seed, difference);
            }
        }
    }
    counts.print();
    let (reached, missed) = counts.reached(&required.unwrap_or_default());
    println!("{} passed, {} failed", passed + reached, failed + missed);
    failed + missed == 0
}
