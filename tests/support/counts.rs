//! Counts of what a test's inputs reached, so that it can fail where they did not reach something.

use std::collections::HashMap;

/// Numbers that fill the places of a template.
type Variant = ([u8; 3], usize);

/// An event that a run must reach: a template and the numbers in it.
pub type Event = (&'static str, Vec<u8>);

#[derive(Default)]
pub struct Counts {
    counts: HashMap<(&'static str, Variant), u64>,
}

impl Counts {
    /// Counts one event. The template has a place for each number: `#` is printed in decimal, `$` as two hex digits.
    pub fn hit(&mut self, template: &'static str, numbers: &[u8]) {
        *self.counts.entry((template, variant(numbers))).or_insert(0) += 1;
    }

    /// Prints every event that was counted, in the order of the labels.
    pub fn print(&self) {
        let mut all: Vec<(String, u64)> =
            self.counts.iter().map(|((template, (numbers, used)), count)| (label(template, &numbers[..*used]), *count)).collect();
        all.sort();
        for (event, count) in all {
            println!("{:8} {}", count, event);
        }
    }

    /// How many of the events were reached and how many were not; the latter are printed.
    pub fn reached(&self, required: &[Event]) -> (u64, u64) {
        let mut tally = (0, 0);
        for (template, numbers) in required {
            if self.counts.contains_key(&(*template, variant(numbers))) {
                tally.0 += 1;
            } else {
                tally.1 += 1;
                println!("not reached: {}", label(template, numbers));
            }
        }
        tally
    }
}

fn variant(numbers: &[u8]) -> Variant {
    let mut places = [0; 3];
    places[..numbers.len()].copy_from_slice(numbers);
    (places, numbers.len())
}

/// The template with its places filled.
fn label(template: &str, numbers: &[u8]) -> String {
    let mut rest = numbers.iter();
    let mut filled = String::new();
    for character in template.chars() {
        match character {
            '#' => filled.push_str(&format!("{}", rest.next().expect("a number for each place"))),
            '$' => filled.push_str(&format!("{:02X}", rest.next().expect("a number for each place"))),
            _ => filled.push(character),
        }
    }
    filled
}
