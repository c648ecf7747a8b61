//! The sheet's natural reader and writer.

mod read;
mod write;

pub use read::read;
pub use write::write;
pub(super) use write::{write_contents, BODIES};

/// Where the bodies begin, by how many there are.
pub(super) const fn start(bodies: usize) -> usize {
    1 + 5 * bodies
}
