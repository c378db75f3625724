//! The program on whole files: instructions by callgrind, and seconds beside `cat`.

use crate::timing::{median, processor_seconds_of_children};
use std::fs::{self, File};
use std::path::{Path, PathBuf};
use std::process::{Command, Stdio};

/// A program and the folder that it is run in.
pub struct Program {
    pub panel: PathBuf,
    pub folder: PathBuf,
}

impl Program {
    /// Instructions of the program on a bus file, or nothing where callgrind fails.
    fn instructions(&self, bus: &[u8]) -> Option<f64> {
        fs::write(self.folder.join("bus"), bus).ok()?;
        let output = Command::new("valgrind")
            .args(["--tool=callgrind", "--callgrind-out-file=/dev/null"])
            .arg(&self.panel)
            .current_dir(&self.folder)
            .stdin(File::open(self.folder.join("bus")).ok()?)
            .stdout(Stdio::null())
            .output()
            .ok()?;
        let said = String::from_utf8_lossy(&output.stderr).into_owned();
        let line = said.lines().find(|line| line.contains("Collected"))?;
        line.rsplit(' ').next()?.parse().ok()
    }

    /// What a longer file takes more than a shorter one of the same kind: start and end cancel out.
    pub fn more_instructions(&self, longer: &[u8], shorter: &[u8]) -> Option<f64> {
        Some(self.instructions(longer)? - self.instructions(shorter)?)
    }

    /// Seconds for a file, from a file to a file, and seconds for `cat` to copy it: the medians of some turns.
    pub fn seconds(&self, bus: &[u8]) -> Result<(f64, f64), String> {
        fs::write(self.folder.join("bus"), bus).map_err(|error| error.to_string())?;
        let (mut ours, mut cat) = (vec![], vec![]);
        for _ in 0..11 {
            ours.push(self.run(&self.panel)?);
            cat.push(self.run(Path::new("cat"))?);
        }
        Ok((median(ours), median(cat)))
    }

    /// The processor's time for one run: the clock on the wall would count other work too.
    fn run(&self, program: &Path) -> Result<f64, String> {
        let told = |error: std::io::Error| format!("{}: {}", program.display(), error);
        let stdin = File::open(self.folder.join("bus")).map_err(told)?;
        let stdout = File::create(self.folder.join("out")).map_err(told)?;
        let before = processor_seconds_of_children();
        let status = Command::new(program).current_dir(&self.folder).stdin(stdin).stdout(stdout).status().map_err(told)?;
        if status.success() {
            Ok(processor_seconds_of_children() - before)
        } else {
            Err(format!("{} ended with {}", program.display(), status))
        }
    }
}
