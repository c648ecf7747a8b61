//! Jobs that can still end or cannot.

mod can_end;

use crate::floor::{Floor, ANY_SIZE};
use crate::seen;
use second::cases::ends::{full, make, End};
use second::data::Graph;

type Input = seen::Input<End>;

pub const FLOOR: Floor<Input> = Floor {
    name: "ends",
    make: |dice| Input::new(make(dice), graph),
    full: Some(|dice| Input::new(full(dice), graph)),
    size: |input| input.size,
    sizes: ANY_SIZE,
    calls: &[can_end::CALL],
};

fn graph(case: &End) -> &Graph {
    &case.graph
}
