//! The one table.

use crate::bytes;
use crate::files::{refreshes, writes};
use crate::program::Program;
use crate::setups::{setups, Setup};
use crate::timing::median;
use reference::commands::{CSRDIR_DOWN, CSRDIR_LEFT, CSRDIR_RIGHT, CSRDIR_UP};
use std::path::{Path, PathBuf};
use std::process::Command;

/// Processes for each library at each place, run in turn; each is placed anew in the machine's memory.
const PROCESSES: usize = 3;

/// What a process tells: three figures a line.
type Told = Vec<[f64; 3]>;

/// A row of the table; what is not there is not printed.
#[derive(Default)]
struct Line {
    what: String,
    unit: &'static str,
    ours: Option<f64>,
    other: Option<f64>,
    /// A composer of one dot at a time.
    slower: Option<f64>,
    /// Filling, copying, or `cat`.
    base: Option<f64>,
    /// Ours on rows of the same width that aren't scrolled.
    unscrolled: Option<f64>,
}

pub fn print(panel: &str, folder: &str, ours: &str, other: Option<&str>) -> Result<(), String> {
    let mut lines = times(ours, other)?;
    let panel = Path::new(panel).canonicalize().map_err(|error| format!("{}: {}", panel, error))?;
    lines.extend(program(&Program { panel, folder: PathBuf::from(folder) })?);
    let with_other = other.is_some();
    println!("| What | Unit | Ours |{} One dot at a time | Fill, copy, cat | One dot / ours | Ours / fill, copy, cat | Scrolled / not |",
        if with_other { " Other | Ours / other |" } else { "" });
    println!("|---|---|---:|{}---:|---:|---:|---:|---:|", if with_other { "---:|---:|" } else { "" });
    for line in lines {
        let ratio = |above: Option<f64>, below: Option<f64>| Some(above? / below?);
        let mut cells = vec![line.what, line.unit.to_string(), number(line.ours)];
        if with_other {
            cells.extend([number(line.other), number(ratio(line.ours, line.other))]);
        }
        cells.extend([number(line.slower), number(line.base)]);
        let ratios = [ratio(line.slower, line.ours), ratio(line.ours, line.base), ratio(line.ours, line.unscrolled)];
        cells.extend(ratios.map(number));
        println!("| {} |", cells.join(" | "));
    }
    Ok(())
}

/// Three digits that count.
fn number(value: Option<f64>) -> String {
    match value {
        Some(value) if value.abs() >= 100.0 => format!("{:.0}", value),
        Some(value) if value.abs() >= 10.0 => format!("{:.1}", value),
        Some(value) if value.abs() >= 1.0 => format!("{:.2}", value),
        Some(value) => format!("{:.3}", value),
        None => String::new(),
    }
}

/// The programs over one library, each with the library at another place.
fn programs(folder: &str) -> Result<Vec<PathBuf>, String> {
    let entries = std::fs::read_dir(folder).map_err(|error| format!("{}: {}", folder, error))?;
    let mut found: Vec<PathBuf> = entries.filter_map(|entry| Some(entry.ok()?.path())).collect();
    found.retain(|path| path.file_name().map_or(false, |name| name.to_string_lossy().starts_with("bench-")));
    found.sort();
    Ok(found)
}

/// The figures of processes over the library and, in turn with them, over the other one.
fn times(ours: &str, other: Option<&str>) -> Result<Vec<Line>, String> {
    let programs = [programs(ours)?, other.map_or(Ok(vec![]), programs)?];
    let [mut ours, mut others] = [&programs[0], &programs[1]].map(|places| vec![vec![]; places.len()]);
    for _ in 0..PROCESSES {
        for place in 0..ours.len() {
            for (told, programs) in [(&mut ours, &programs[0]), (&mut others, &programs[1])] {
                if let Some(program) = programs.get(place) {
                    told[place].push(process(program)?);
                }
            }
        }
    }
    // The mean over the places of the median of each; nothing where there is none.
    let of = |places: &[Vec<Told>], line: usize, column: usize| {
        let medians = places.iter().map(|runs| median(runs.iter().map(|run| run[line][column]).collect()));
        Some(medians.sum::<f64>() / places.len() as f64).filter(|mean| !mean.is_nan())
    };
    let setups = setups();
    // A set-up's rows in frames have its place as their line; in bands they come behind all those.
    let rows = |how: &'static str, first: usize| {
        setups.iter().map(move |setup| (format!("{}{}", setup.name, how), "ns a dot", setup.unscrolled.map(|place| first + place)))
    };
    let records = bytes::records().into_iter().map(|record| (record.name.to_string(), "ns a byte", None));
    let names = rows("", 0).chain(rows("; in bands", setups.len())).chain(records);
    Ok(names
        .enumerate()
        .map(|(line, (what, unit, unscrolled))| Line {
            what,
            unit,
            ours: of(&ours, line, 0),
            other: of(&others, line, 0),
            slower: of(&ours, line, 1),
            base: of(&ours, line, 2),
            unscrolled: unscrolled.and_then(|line| of(&ours, line, 0)),
        })
        .collect())
}

fn process(program: &Path) -> Result<Told, String> {
    let bench = program.display();
    let output = Command::new(program).arg("measure").output().map_err(|error| format!("{}: {}", bench, error))?;
    if !output.status.success() {
        return Err(format!("{} ended with {}", bench, output.status));
    }
    let read = |line: &str| {
        let numbers: Vec<f64> = line.split(' ').filter_map(|word| word.parse().ok()).collect();
        <[f64; 3]>::try_from(numbers).map_err(|_| format!("{}: {}", bench, line))
    };
    String::from_utf8_lossy(&output.stdout).lines().map(read).collect()
}

/// The program on files: instructions where callgrind is there, and seconds.
fn program(program: &Program) -> Result<Vec<Line>, String> {
    let all = setups();
    let [graphics, text] = [&all[0], &all[1]];
    std::fs::write(program.folder.join("font.bin"), &graphics.font).map_err(|error| error.to_string())?;
    let a_byte = |what: &str, longer: Vec<u8>, shorter: Vec<u8>| Line {
        what: what.to_string(),
        unit: "instructions a byte",
        ours: program.more_instructions(&longer, &shorter).map(|more| more / (longer.len() - shorter.len()) as f64),
        ..Line::default()
    };
    let a_frame = |setup: &Setup| Line {
        what: format!("program: a frame of {}", setup.name),
        unit: "instructions a frame",
        ours: program.more_instructions(&refreshes(setup, 1, 3), &refreshes(setup, 1, 1)).map(|more| more / 2.0),
        ..Line::default()
    };
    let seconds = |what: &str, bus: &[u8]| {
        let (ours, cat) = program.seconds(bus)?;
        Ok::<Line, String>(Line { what: what.to_string(), unit: "processor seconds", ours: Some(ours), base: Some(cat), ..Line::default() })
    };
    let writes_of = |count: usize, direction: u8| writes(graphics, count, direction);
    Ok(vec![
        a_byte("program: writes of 2,000 bytes, right", writes_of(40, CSRDIR_RIGHT), writes_of(10, CSRDIR_RIGHT)),
        a_byte("program: writes of 2,000 bytes, left", writes_of(40, CSRDIR_LEFT), writes_of(10, CSRDIR_LEFT)),
        a_byte("program: writes of 2,000 bytes, up", writes_of(40, CSRDIR_UP), writes_of(10, CSRDIR_UP)),
        a_byte("program: writes of 2,000 bytes, down", writes_of(40, CSRDIR_DOWN), writes_of(10, CSRDIR_DOWN)),
        a_byte("program: full refreshes without frames", refreshes(graphics, 4, 0), refreshes(graphics, 1, 0)),
        a_frame(graphics),
        a_frame(text),
        seconds("program: 16 MB of writes of 2,000 bytes, right", &writes_of(8_000, CSRDIR_RIGHT))?,
        seconds("program: 16 MB of writes of 2,000 bytes, down", &writes_of(8_000, CSRDIR_DOWN))?,
        seconds("program: 200 full refreshes, each with a frame of 640 x 240", &refreshes(graphics, 200, 1))?,
    ])
}
