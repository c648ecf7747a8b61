//! The tracker: its start, single moves, and walks.

mod idle;
mod start;
mod step;
mod walk;

use crate::floor::{Floor, ANY_SIZE};
use crate::seen;
use second::cases::tracks::{make, Track};

type Input = seen::Input<Track>;

pub const FLOOR: Floor<Input> = Floor {
    name: "tracker",
    make: |dice| Input::new(make(dice), |case| &case.graph),
    full: None,
    size: |input| input.size,
    sizes: ANY_SIZE,
    calls: &[start::CALL, idle::CALL, step::CALL, walk::CALL],
};
