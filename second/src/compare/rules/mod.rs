//! Graphs, markings, asking for a step or for all steps, and taking one.

mod allowed_to;
mod allowed_to_someone;
mod ask;
mod check;
mod finished;
mod keep;
mod take;

use crate::floor::{Floor, ANY_SIZE};
use crate::seen;
use second::cases::{self, Case};

type Input = seen::Input<Case>;

pub const FLOOR: Floor<Input> = Floor {
    name: "rules",
    make: |dice| Input::new(cases::make(dice), |case| &case.graph),
    full: None,
    size: |input| input.size,
    sizes: ANY_SIZE,
    calls: &[
        check::CALL,
        ask::CALL,
        allowed_to::CALL,
        allowed_to_someone::CALL,
        take::CALL,
        finished::CALL,
        keep::CALL,
    ],
};
