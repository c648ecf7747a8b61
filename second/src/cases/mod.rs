//! Makes the inputs of the comparison: graphs of every size, whole and damaged, with a marking and an entry for each.

pub mod cabinet;
mod crowds;
mod damage;
mod dice;
pub mod ends;
mod entries;
pub mod folds;
mod graphs;
mod greying;
pub mod jobs;
pub mod journals;
pub mod laps;
mod markings;
mod parts;
pub mod records;
pub mod sheets;
mod spoil;
pub mod tracks;
mod walks;

pub use dice::{Density, Dice};
pub use entries::{fitting, make_moved, make_waiting};
pub use graphs::sized;
pub use markings::inside;
pub use walks::walk;

use crate::data::{Entry, Graph, Marking};
use crate::sample;

#[derive(Clone, Debug)]
pub struct Case {
    pub graph: Graph,
    pub marking: Marking,
    pub entry: Entry,
}

/// Marking and entry are made for the whole graph and the damage comes last, so that several refusals hold at once and their
/// order is tried.
pub fn make(dice: &mut Dice) -> Case {
    let (mut graph, mut marking) = if dice.one_in(4) { greying::job(dice) } else { job(dice) };
    let entry = entries::aimed(dice, &mut graph, &mut marking);
    harm(dice, &mut graph, &mut marking);
    Case { graph, marking, entry }
}

/// A graph and a marking: the sample job, noise, and most often a well-formed graph.
fn job(dice: &mut Dice) -> (Graph, Marking) {
    match dice.below(20) {
        0 | 1 => (sample::graph(), dice.pick(&[sample::START, sample::REBOOTED, sample::CHECKED])),
        2 => (graphs::noise(dice), Marking::new(dice.word(), dice.word(), dice.word())),
        _ => {
            let graph = graphs::well_formed(dice);
            let marking = markings::inside(dice, graph.steps);
            (graph, marking)
        }
    }
}

/// The same, but most often one that a journal gets far on.
fn lively_job(dice: &mut Dice) -> (Graph, Marking) {
    if dice.one_in(4) {
        return job(dice);
    }
    let graph = graphs::lively(dice);
    let mut marking = markings::inside(dice, graph.steps);
    markings::liven(dice, graph.steps, &mut marking);
    (graph, marking)
}

/// Nothing, half of the time; otherwise a marking or a graph that is damaged, or both.
fn harm(dice: &mut Dice, graph: &mut Graph, marking: &mut Marking) {
    if dice.one_in(8) {
        markings::name_beyond(dice, graph.steps, marking);
    }
    for _ in 0..dice.pick(&[0, 0, 0, 0, 0, 1, 1, 2, 3]) {
        damage::damage(dice, graph);
    }
}
