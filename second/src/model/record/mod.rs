//! Folded records, as a table of what happens to each state of each step. The eight sets are only read off it at the end.

mod apply;
mod bytes;
mod cell;
mod fold;
mod join;
mod restore;
mod sets;

pub use apply::apply;
pub use bytes::{read, write};
pub use fold::fold;
pub use join::join;
pub use restore::restore;

use cell::Cell;

#[derive(Clone, PartialEq, Eq, Debug)]
struct Record {
    /// One for each step, each on its own: a record never asks of a step what another one is like.
    cells: Vec<Cell>,
}

impl Record {
    /// No marking is allowed: some step is not allowed in any state.
    fn is_never(&self) -> bool {
        self.cells.iter().any(|cell| !cell.allows(|_| true))
    }

    fn then(&self, other: &Record) -> Record {
        Record { cells: self.cells.iter().zip(&other.cells).map(|(first, second)| first.then(second)).collect() }
    }
}

/// Number 2 of a stated n.
fn out_of_range(n: u64) -> bool {
    !(1..=64).contains(&n)
}
