//! The answers of lists, compared with stored ones and with the reference's.

use crate::generate::generate;
use crate::list;
use crate::runner::Runner;
use crate::watch::{self, Before};
use host::functions::{Functions, LIBRARY, REFERENCE};
use host::guarded::Lend;
use std::fs;
use std::path::{Path, PathBuf};
use support::counts::Counts;

/// How many lists the folder of vectors has.
const VECTORS: usize = 30;

/// A line for each answer.
pub fn answers(text: &str, functions: &'static Functions, lend: Lend) -> Result<String, String> {
    let mut runner = Runner::new(functions, lend);
    let mut all = String::new();
    for (number, line) in list::parse(text)? {
        let answer = runner.carry_out(&line).map_err(|error| format!("line {}, {}: {}", number, line, error))?;
        all.extend(answer.map(|answer| answer + "\n"));
    }
    Ok(all)
}

/// Prints each difference and, as the last line, 'N passed, M failed'; answers whether nothing failed.
pub fn vectors(folder: &str, lend: Lend) -> Result<bool, String> {
    let entries = fs::read_dir(folder).map_err(|error| format!("{}: {}", folder, error))?;
    let mut files: Vec<PathBuf> = entries.filter_map(|entry| Some(entry.ok()?.path())).collect();
    files.sort();
    let (lists, others): (Vec<PathBuf>, Vec<PathBuf>) =
        files.into_iter().partition(|path| path.extension().map_or(false, |extension| extension == "calls"));
    let (mut passed, mut failed) = (0, 0);
    // Each list has its answers, which are read below.
    if lists.len() != VECTORS || others.len() != VECTORS {
        failed += 1;
        println!("there are {} lists and {} other files, not {} of each", lists.len(), others.len(), VECTORS);
    }
    for path in lists {
        for (name, functions) in [("library", &LIBRARY), ("reference", &REFERENCE)] {
            match vector(&path, functions, lend) {
                Ok(()) => passed += 1,
                Err(difference) => {
                    failed += 1;
                    println!("{}, {}: {}", path.display(), name, difference);
                }
            }
        }
    }
    println!("{} passed, {} failed", passed, failed);
    Ok(failed == 0)
}

fn vector(path: &Path, functions: &'static Functions, lend: Lend) -> Result<(), String> {
    let read = |path: PathBuf| fs::read_to_string(&path).map_err(|error| format!("{}: {}", path.display(), error));
    let (list, stored) = (read(path.to_path_buf())?, read(path.with_extension("answers"))?);
    let answered = answers(&list, functions, lend)?;
    if answered.is_empty() {
        return Err("nothing is answered".to_string());
    }
    if answered == stored {
        return Ok(());
    }
    let same = answered.lines().zip(stored.lines()).take_while(|(a, b)| a == b).count();
    let at = |text: &str| text.lines().nth(same).unwrap_or("none").to_string();
    Err(format!("answer {}: stored {}, answered {}", same + 1, at(&stored), at(&answered)))
}

/// Runs the list of a seed on both, line by line.
pub fn seed(seed: u64, lend: Lend, counts: &mut Counts) -> Result<(), String> {
    let (mut library, mut reference) = (Runner::new(&LIBRARY, lend), Runner::new(&REFERENCE, lend));
    for (number, line) in list::parse(&generate(seed))? {
        let at = |difference: String| format!("line {}, {}: {}", number, line, difference);
        let before = Before::of(&reference);
        let answered = library.carry_out(&line).map_err(at)?;
        let expected = reference.carry_out(&line).map_err(at)?;
        if answered != expected {
            let [expected, answered] = [expected, answered].map(Option::unwrap_or_default);
            return Err(at(format!("reference {}, library {}", expected, answered)));
        }
        watch::line(&before, &line, &expected.unwrap_or_default(), counts);
    }
    Ok(())
}
