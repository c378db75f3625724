//! Prints what the program prints: reads a bus file on standard input and `font.bin` in the current folder.

use reference::busfile;
use std::io::{self, Read, Write};

fn main() -> io::Result<()> {
    let mut bus = Vec::new();
    io::stdin().read_to_end(&mut bus)?;
    // A font that cannot be read counts as one of length 0.
    let font = std::fs::read("font.bin").unwrap_or_default();
    io::stdout().write_all(busfile::run(&bus, &font).as_bytes())
}
