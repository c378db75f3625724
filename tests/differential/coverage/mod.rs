//! What a run reached. An observer carries a bus file out on the reference and watches each call: the state before it, the
//! call and the answer. Which of 01's cases a frame shows it finds out by the reference's own functions.

mod bus;
mod cursor;
mod dots;
mod files;
mod limits;
mod rows;
mod runs;
mod scrolling;
mod waking;

pub use files::watch_file;
