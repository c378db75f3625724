//! Compares the static library with the reference on controllers, memories, fonts, row numbers and buffers that no bus file
//! can bring about.
//!
//!     library [FIRST_SEED [SEEDS]]   by default seeds 1 to 20,000
//!     library --long                 records longer than any of a bus file
//!
//! With --exact before the seeds, bytes are lent in allocations of exactly their size, for valgrind, and not between guards.
//!
//! A difference is told by its seed and call. Then come the counts of what the cases reached, one a line. From 20,000 seeds
//! on each count of `required.rs` must not be 0. The last line is 'N passed, M failed': N counts cases that compared equal
//! and required counts that aren't 0.

mod cases;
mod compare;
mod long;
mod required;
mod send;
mod watch;

use host::guarded::{lending, Lend};
use std::process::ExitCode;

const SEEDS: u64 = 20_000;

fn main() -> ExitCode {
    let words: Vec<String> = std::env::args().skip(1).collect();
    let words: Vec<&str> = words.iter().map(String::as_str).collect();
    let (lend, words) = lending(&words);
    let numbers: Result<Vec<u64>, _> = words.iter().map(|word| word.parse()).collect();
    let passed = match (words, numbers.as_deref()) {
        (["--long"], _) => long::check(lend),
        (_, Ok([])) => over_seeds(1, SEEDS, lend),
        (_, Ok([first])) => over_seeds(*first, SEEDS, lend),
        (_, Ok([first, seeds])) => over_seeds(*first, *seeds, lend),
        _ => {
            eprintln!("usage: library [--exact] [FIRST_SEED [SEEDS]] or library --long");
            false
        }
    };
    if passed {
        ExitCode::SUCCESS
    } else {
        ExitCode::FAILURE
    }
}

fn over_seeds(first: u64, seeds: u64, lend: Lend) -> bool {
    let required = if seeds >= SEEDS { Some(required::required()) } else { None };
    support::seeds::run(first..first + seeds, required, |seed, counts| compare::compare(&cases::generate(seed), lend, counts))
}
