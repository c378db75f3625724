//! What the tests share: seeded numbers, set-ups of the controller, records of a bus file, and counts of what was reached.

pub mod counts;
pub mod limits;
pub mod random;
pub mod records;
pub mod seeds;
pub mod setup;
pub mod sleep;
