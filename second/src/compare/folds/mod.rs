//! Journals folded, and markings restored from a record and the rest of a journal.

mod fold;
mod restore;

use crate::floor::{Floor, ANY_SIZE};
use crate::seen;
use second::cases::folds::{full, make, Fold};
use second::data::Graph;

type Input = seen::Input<Fold>;

pub const FLOOR: Floor<Input> = Floor {
    name: "folds",
    make: |dice| Input::new(make(dice), graph),
    full: Some(|dice| Input::new(full(dice), graph)),
    size: |input| input.size,
    sizes: ANY_SIZE,
    calls: &[fold::CALL, restore::CALL],
};

fn graph(case: &Fold) -> &Graph {
    &case.graph
}
