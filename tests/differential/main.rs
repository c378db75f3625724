//! Compares the program with the reference on generated bus files.
//!
//!     differential PANEL [FIRST_SEED [SEEDS]]   compares; by default seeds 1 to 2,000
//!     differential --write SEED BUS FONT        writes the bus file and the font of a seed to the files BUS and FONT
//!
//! A difference is told by its seed and the first line that differs. Then come the counts of what the files reached, one a
//! line. From 2,000 seeds on each count of `required.rs` must not be 0. The last line is 'N passed, M failed': N
//! counts files that compared equal and required counts that aren't 0.

mod coverage;
mod damage;
mod disturb;
mod generate;
mod program;
mod required;

use generate::generate;
use program::{write_case, Folder, Input};
use reference::busfile;
use std::path::Path;
use std::process::ExitCode;
use support::counts::Counts;
use support::seeds;

const SEEDS: u64 = 2_000;

fn main() -> ExitCode {
    let arguments: Vec<String> = std::env::args().skip(1).collect();
    let number = |place: usize, default: u64| arguments.get(place).map_or(Ok(default), |text| text.parse::<u64>());
    let outcome = match (arguments.first().map(String::as_str), arguments.len(), number(1, 1), number(2, SEEDS)) {
        (Some("--write"), 4, Ok(seed), _) => write_seed(seed, Path::new(&arguments[2]), Path::new(&arguments[3])),
        (Some(program), 1..=3, Ok(first), Ok(seeds)) if program != "--write" => compare(Path::new(program), first, seeds),
        _ => Err("usage: differential PANEL [FIRST_SEED [SEEDS]] or differential --write SEED BUS FONT".to_string()),
    };
    match outcome {
        Ok(true) => ExitCode::SUCCESS,
        Ok(false) => ExitCode::FAILURE,
        Err(message) => {
            eprintln!("{}", message);
            ExitCode::FAILURE
        }
    }
}

fn write_seed(seed: u64, bus: &Path, font: &Path) -> Result<bool, String> {
    let case = generate(seed);
    write_case((bus, &case.bus), (font, case.font.as_deref())).map_err(|error| error.to_string())?;
    Ok(true)
}

fn compare(program: &Path, first: u64, seeds: u64) -> Result<bool, String> {
    let program = program.canonicalize().map_err(|error| format!("{}: {}", program.display(), error))?;
    let folder = Folder::create().map_err(|error| format!("temporary folder: {}", error))?;
    let required = if seeds >= SEEDS { Some(required::required()) } else { None };
    Ok(seeds::run(first..first + seeds, required, |seed, counts| compare_seed(&program, &folder.path, seed, counts)))
}

fn compare_seed(program: &Path, folder: &Path, seed: u64, counts: &mut Counts) -> Result<(), String> {
    let case = generate(seed);
    write_case((&folder.join("bus"), &case.bus), (&folder.join("font.bin"), case.font.as_deref()))
        .map_err(|error| error.to_string())?;
    let input = if seed % 4 == 0 { Input::Pipe } else { Input::File };
    let printed = program::run(program, folder, input)?;
    let font = case.font.unwrap_or_default();
    let expected = busfile::run(&case.bus, &font);
    coverage::watch_file(&case.bus, &font, &expected, counts);
    if printed == expected.as_bytes() {
        Ok(())
    } else {
        Err(first_difference(&expected, &String::from_utf8_lossy(&printed)))
    }
}

fn first_difference(expected: &str, printed: &str) -> String {
    let (mut wanted, mut got) = (expected.split('\n'), printed.split('\n'));
    let mut line = 1;
    loop {
        match (wanted.next(), got.next()) {
            (Some(a), Some(b)) if a == b => line += 1,
            (None, None) => return "the output isn't text".to_string(),
            (a, b) => return format!("line {}: reference {:?}, program {:?}", line, a.unwrap_or(""), b.unwrap_or("")),
        }
    }
}
