//! An independent model of the controller and of the program that reads bus files, written plainly and one dot at a time
//! from 01, what has been asked for since (#101, #102) and the readings of docs/DECISIONS.md, without the proved code or its
//! definitions. The program, and the library that is linked with Rust, are compared with it.
//!
//! A caller may hand in any controller, memory, font, row number and buffer.

pub mod busfile;
pub mod commands;
pub mod cursor;
pub mod flashing;
pub mod glyphs;
pub mod layers;
pub mod mixing;
pub mod model;
pub mod parameters;
pub mod refusals;
pub mod registers;
pub mod row;
