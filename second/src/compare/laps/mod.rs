//! Laps that go on for ever.

mod lap;

use crate::floor::{Floor, ANY_SIZE};
use crate::seen;
use second::cases::laps::{full, make, Lap};
use second::data::Graph;

type Input = seen::Input<Lap>;

pub const FLOOR: Floor<Input> = Floor {
    name: "laps",
    make: |dice| Input::new(make(dice), graph),
    full: Some(|dice| Input::new(full(dice), graph)),
    size: |input| input.size,
    sizes: ANY_SIZE,
    calls: &[lap::CALL],
};

fn graph(case: &Lap) -> &Graph {
    &case.graph
}
