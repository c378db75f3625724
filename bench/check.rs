//! That what is measured side by side does the same.

use crate::setups::{setups, Setup};
use crate::{bytes, rows};
use reference::refusals::FONT_SIZE;
use support::random::Random;
use support::setup;

/// Seeded set-ups beside those that are measured.
const SEEDS: u64 = 400;

/// Prints 'N passed, M failed' as its last line, and says whether M is 0.
pub fn check() -> bool {
    let (mut passed, mut failed) = (0, 0);
    let mut count = |agree: bool, name: &str| {
        if agree {
            passed += 1;
        } else {
            failed += 1;
            println!("{}: the library and the reference differ", name);
        }
    };
    for setup in setups() {
        for frame in [0, 3, 23] {
            count(rows::agree(&setup, frame), &setup.name);
        }
    }
    for seed in 1..=SEEDS {
        let (setup, frame) = seeded(seed);
        count(rows::agree(&setup, frame), &setup.name);
    }
    for record in bytes::records() {
        count(bytes::agree(&record), record.name);
    }
    println!("{} passed, {} failed", passed, failed);
    failed == 0
}

/// A set-up whose rows are accepted, made on the reference.
fn seeded(seed: u64) -> (Setup, u32) {
    let mut random = Random::new(seed);
    let machine = setup::Setup::choose(&mut random).machine(&mut random);
    let font = random.bytes(FONT_SIZE as u32);
    let name = format!("set-up of seed {}", seed);
    let setup = Setup { name, unscrolled: None, controller: machine.controller, memory: machine.memory, font };
    (setup, random.next() as u32)
}
