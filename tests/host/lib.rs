//! The model as a host in Rust calls it: the functions of the library, what the reference says that they do, the 48 bytes
//! of a saved controller, and what is lent to a call.

pub mod calls;
pub mod expected;
pub mod functions;
pub mod guarded;
pub mod handed_in;
pub mod saved;
