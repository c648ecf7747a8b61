//! The sheet: contents, then bodies.

mod read;
mod write;

pub use read::read;
pub use write::write;

/// The kinds of arrows, by their numbers.
const CONDITION: u8 = 0;
const RESPONSE: u8 = 1;
const INCLUDE: u8 = 2;
const EXCLUDE: u8 = 3;
