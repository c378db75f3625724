//! Records that are longer than any of a bus file: two that are sent, and one of 0xFFFFFFFF bytes, which is not, as a count of
//! refusals could be taken for NOTHING_SENT.

use crate::cases::{Call, Case};
use crate::compare::compare;
use host::calls::{self, NOTHING_SENT};
use host::guarded::{Guarded, Lend};
use host::saved;
use reference::commands::MWRITE;
use reference::model::Controller;
use reference::refusals::MEMORY_SIZE;
use support::counts::Counts;
use support::random::Random;

/// More than 16 bits count.
const LENGTH: usize = 70_001;

/// Prints each difference and, as the last line, 'N passed, M failed'; says whether M is 0.
pub fn check(lend: Lend) -> bool {
    let outcomes = [
        // No such command, so every byte is refused.
        ("a long record, refused", sent(0x00, lend)),
        // Past memory's end, where a part is refused, and on at its start.
        ("a long record, through memory", sent(MWRITE, lend)),
        ("a record of 0xFFFFFFFF bytes", nothing_done()),
    ];
    let failed = outcomes.iter().filter(|(_, outcome)| outcome.is_err()).count();
    for (name, outcome) in &outcomes {
        if let Err(difference) = outcome {
            println!("{}: {}", name, difference);
        }
    }
    println!("{} passed, {} failed", outcomes.len() - failed, failed);
    failed == 0
}

fn sent(command: u8, lend: Lend) -> Result<(), String> {
    let mut bytes = vec![command];
    bytes.extend(Random::new(3).bytes(LENGTH as u32 - 1));
    let case = Case {
        controller: saved::write(&Controller::reset()),
        memory: vec![0; MEMORY_SIZE],
        font: vec![],
        calls: vec![Call::Send { bytes, answers: LENGTH }],
    };
    compare(&case, lend, &mut Counts::default())
}

fn nothing_done() -> Result<(), String> {
    const LENGTH: usize = NOTHING_SENT as usize;
    // The system clears a page when it is first touched, so that these take no room while nobody does.
    let (bytes, mut answers) = (vec![0; LENGTH], vec![0; LENGTH]);
    let (saved, content) = (saved::write(&Controller::reset()), vec![0x55; MEMORY_SIZE]);
    let (mut controller, mut memory) = (Guarded::new(&saved), Guarded::new(&content));
    let answer = calls::send(controller.lent(), memory.lent(), &bytes, &mut answers);
    if answer != NOTHING_SENT {
        return Err(format!("the answer is {:X}", answer));
    }
    // Code 00 and data for it would be refused.
    if answers[0] != 0 || answers[LENGTH - 1] != 0 {
        return Err("there are answers".to_string());
    }
    controller.difference("controller", &saved)?;
    memory.difference("memory", &content)
}
