//! Runs the program on one bus file, with a limit of time.

use std::fs::{self, File};
use std::io::{self, Read, Write};
use std::path::{Path, PathBuf};
use std::process::{Command, Stdio};
use std::sync::mpsc;
use std::thread;
use std::time::Duration;

const TIME_LIMIT: Duration = Duration::from_secs(20);

/// A temporary folder that is removed at the end.
pub struct Folder {
    pub path: PathBuf,
}

impl Folder {
    pub fn create() -> io::Result<Folder> {
        let path = std::env::temp_dir().join(format!("differential-{}", std::process::id()));
        fs::create_dir(&path)?;
        Ok(Folder { path })
    }
}

impl Drop for Folder {
    fn drop(&mut self) {
        // A folder that stays behind does no harm.
        let _ = fs::remove_dir_all(&self.path);
    }
}

/// Writes a bus file and a font, each to its path; without a font no file is left at its path.
pub fn write_case(bus: (&Path, &[u8]), font: (&Path, Option<&[u8]>)) -> io::Result<()> {
    fs::write(bus.0, bus.1)?;
    match font.1 {
        Some(bytes) => fs::write(font.0, bytes),
        None if font.0.exists() => fs::remove_file(font.0),
        None => Ok(()),
    }
}

/// How the program gets the bus file: as a file, or through a pipe, which hands it out in pieces.
#[derive(Clone, Copy, PartialEq)]
pub enum Input {
    File,
    Pipe,
}

/// What the program prints in the folder, with the file `bus` there on its standard input.
pub fn run(program: &Path, folder: &Path, input: Input) -> Result<Vec<u8>, String> {
    let told = |error: io::Error| error.to_string();
    let bus = folder.join("bus");
    let stdin = match input {
        Input::File => Stdio::from(File::open(&bus).map_err(told)?),
        Input::Pipe => Stdio::piped(),
    };
    let mut child = Command::new(program)
        .current_dir(folder)
        .stdin(stdin)
        .stdout(Stdio::piped())
        .stderr(Stdio::null())
        .spawn()
        .map_err(told)?;
    if let Some(mut pipe) = child.stdin.take() {
        let bytes = fs::read(&bus).map_err(told)?;
        thread::spawn(move || {
            for piece in bytes.chunks(4_099) {
                // After a bad record the program reads no more.
                if pipe.write_all(piece).is_err() {
                    return;
                }
            }
        });
    }
    let mut stdout = child.stdout.take().expect("standard output is piped");
    let (sender, receiver) = mpsc::channel();
    // The channel alone knows of a limit of time, so the reading is done beside it.
    thread::spawn(move || {
        let mut printed = Vec::new();
        let outcome = stdout.read_to_end(&mut printed).map(|_| printed);
        // Nobody receives after the limit of time, and then nobody needs it.
        let _ = sender.send(outcome);
    });
    let received = receiver.recv_timeout(TIME_LIMIT);
    if received.is_err() {
        child.kill().map_err(told)?;
    }
    let status = child.wait().map_err(told)?;
    match received {
        Err(_) => Err(format!("no end within {} s", TIME_LIMIT.as_secs())),
        Ok(Err(error)) => Err(error.to_string()),
        Ok(Ok(_)) if !status.success() => Err(format!("the program ended with {}", status)),
        Ok(Ok(printed)) => Ok(printed),
    }
}
