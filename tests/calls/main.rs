//! Runs lists of calls over the library. `list.rs` states the format.
//!
//!     calls FILE.calls              prints the answers of a list
//!     calls --vectors FOLDER        compares those of every NAME.calls in a folder with NAME.answers, of the reference too
//!     calls --seeds [FIRST COUNT]   compares the library with the reference on lists from seeds, by default 1 to 1,000
//!     calls --write SEED FILE       writes the list of a seed
//!
//! With --exact before these, bytes are lent in allocations of exactly their size, for valgrind, and not between guards.
//!
//! A difference is told by its list or seed and its line. Over seeds the counts of what the lists reached come next, and from
//! 1,000 seeds on each count of `required.rs` must not be 0. The last line of a comparison is 'N passed, M failed'.

mod compare;
mod fields;
mod generate;
mod list;
mod required;
mod runner;
mod watch;

use host::functions::LIBRARY;
use host::guarded::{lending, Lend};
use std::fs;
use std::process::ExitCode;
use support::seeds;

const SEEDS: u64 = 1_000;

fn main() -> ExitCode {
    let words: Vec<String> = std::env::args().skip(1).collect();
    let words: Vec<&str> = words.iter().map(String::as_str).collect();
    let (lend, words) = lending(&words);
    match run(words, lend) {
        Ok(true) => ExitCode::SUCCESS,
        Ok(false) => ExitCode::FAILURE,
        Err(message) => {
            eprintln!("{}", message);
            ExitCode::FAILURE
        }
    }
}

fn run(words: &[&str], lend: Lend) -> Result<bool, String> {
    let usage = "usage: calls [--exact] (FILE.calls | --vectors FOLDER | --seeds [FIRST COUNT] | --write SEED FILE)";
    let number = |word: &str| word.parse::<u64>().map_err(|_| usage.to_string());
    match *words {
        ["--vectors", folder] => compare::vectors(folder, lend),
        ["--seeds"] => Ok(over_seeds(1, SEEDS, lend)),
        ["--seeds", first, count] => Ok(over_seeds(number(first)?, number(count)?, lend)),
        ["--write", seed, file] => {
            let list = generate::generate(number(seed)?);
            fs::write(file, list).map_err(|error| format!("{}: {}", file, error)).map(|()| true)
        }
        [file] if !file.starts_with("--") => {
            let list = fs::read_to_string(file).map_err(|error| format!("{}: {}", file, error))?;
            let answers = compare::answers(&list, &LIBRARY, lend).map_err(|error| format!("{}: {}", file, error))?;
            print!("{}", answers);
            Ok(true)
        }
        _ => Err(usage.to_string()),
    }
}

fn over_seeds(first: u64, count: u64, lend: Lend) -> bool {
    let required = if count >= SEEDS { Some(required::required()) } else { None };
    seeds::run(first..first + count, required, |seed, counts| compare::seed(seed, lend, counts))
}
