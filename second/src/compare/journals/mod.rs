//! Journals: run and walked.

mod run;
mod walk;

use crate::floor::{Floor, ANY_SIZE};
use crate::seen;
use second::cases::journals::{full, make, Journal};
use second::data::Graph;

type Input = seen::Input<Journal>;

pub const FLOOR: Floor<Input> = Floor {
    name: "journals",
    make: |dice| Input::new(make(dice), graph),
    full: Some(|dice| Input::new(full(dice), graph)),
    size: |input| input.size,
    sizes: ANY_SIZE,
    calls: &[run::CALL, walk::CALL],
};

fn graph(case: &Journal) -> &Graph {
    &case.graph
}
