//! The sheet of the cabinet's job, and journals of that job.

mod restore;
mod run;
mod sheet;

use crate::border;
use crate::floor::Floor;
use second::cases::cabinet::{full, make, Cabinet};
use second::data::{Graph, Marking, Written};
use second::{model, peer};
use std::fmt;
use std::ops::RangeInclusive;

/// Steps of two arms and of sixteen.
const SIZES: RangeInclusive<u64> = 4..=18;

pub const FLOOR: Floor<Input> = Floor {
    name: "cabinet",
    make: |dice| Input::new(make(dice)),
    full: Some(|dice| Input::new(full(dice))),
    size: |input| Some(input.graph.steps),
    sizes: SIZES,
    calls: &[sheet::CALL, run::CALL, restore::CALL],
};

/// A case, and the job of its mast: by the model, and as each of the others reads it from the sheet that it has written itself.
pub struct Input {
    case: Cabinet,
    graph: model::Graph,
    start: Marking,
    ours: Job,
    peers: Job,
}

struct Job {
    graph: Graph,
    start: Marking,
}

impl Input {
    fn new(case: Cabinet) -> Self {
        let (graph, start) = model::cabinet::job(case.mast);
        let ours = Job::new(case.mast, border::cabinet, border::read);
        let peers = Job::new(case.mast, peer::cabinet, peer::sheet::read);
        Input { case, graph, start: start.write(), ours, peers }
    }
}

impl fmt::Debug for Input {
    fn fmt(&self, f: &mut fmt::Formatter<'_>) -> fmt::Result {
        self.case.fmt(f)
    }
}

type Writer = fn(u64, &mut [u8]) -> Written;
type Reader = fn(&[u8], &mut Graph, &mut Marking) -> u64;

impl Job {
    /// Where nothing can be read, there are no steps.
    fn new(arms: u64, write: Writer, read: Reader) -> Self {
        let (mut room, mut graph, mut start) = ([0; 400], Graph::bare(0, 0, 0), Marking::default());
        let written = write(arms, &mut room);
        read(&room[..room.len().min(written.length as usize)], &mut graph, &mut start);
        Job { graph, start }
    }
}
