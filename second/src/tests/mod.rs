//! What both bodies must do: the samples S1 to S13, the slips that were made before, and the same answers as each other.

mod actions;
mod alike;
mod allowed;
mod asking;
mod cabinet;
mod dead_ends;
mod ends;
mod findings;
mod journals;
mod laps;
mod masts;
mod may;
mod program;
mod records;
mod rules;
mod sheets;
mod sizes;
mod tracker;

use crate::data::{Allowed, Asked, Ending, Ends, Entry, Graph, Kept, Lapped, Marking, Moved, Ran, Track, Tracked};
use crate::{model, peer, sample};
use std::collections::BTreeSet;

/// The numbers that a call must have given.
fn answers(call: &'static str, numbers: &[u64]) -> BTreeSet<(&'static str, u64)> {
    numbers.iter().map(|number| (call, *number)).collect()
}

/// The sample job with something against the graph or the marking, and its number. The marking is wrong in each.
fn wrong_from_the_start() -> [(Graph, Marking, u64); 4] {
    let [mut counts, mut beyond, mut both] = [(); 3].map(|()| sample::graph());
    counts.people = 17;
    beyond.holds[2] = 1;
    (both.includes[0], both.excludes[0]) = (1, 1);
    let outside = Marking { due: 1 << 3, ..sample::START };
    [(counts, outside, 2), (beyond, outside, 4), (both, outside, 6), (sample::graph(), outside, 8)]
}

/// How many steps are waited for: none, one, some as 2, or nearly all as 63.
fn crowd(waiting: u64) -> u64 {
    match waiting.count_ones() {
        few @ 0..2 => few.into(),
        2..63 => 2,
        _ => 63,
    }
}

/// The bytes of these entries.
fn written(entries: &[Entry]) -> Vec<u8> {
    entries.iter().flat_map(|e| [e.person, e.step, e.role]).collect()
}

/// The entries passed, and led to this marking.
fn ran(entries: u64, marking: Marking) -> Ran {
    Ran { entries, marking, ..Ran::default() }
}

/// A graph as both bodies read it. Each call sees that they agree and gives the model's answer.
struct Both {
    plain: model::Graph,
    graph: Graph,
}

impl Both {
    fn new(graph: Graph) -> Self {
        Both { plain: model::Graph::read(&graph), graph }
    }

    fn check(&self) -> u64 {
        alike(model::check(&self.plain), peer::check(&self.graph))
    }

    fn ask(&self, m: Marking, e: Entry) -> Asked {
        alike(model::ask(&self.plain, m, e), peer::ask(&self.graph, m, e))
    }

    fn allowed_to(&self, m: Marking, person: u64) -> Allowed {
        alike(model::allowed_to(&self.plain, m, person), peer::allowed_to(&self.graph, m, person))
    }

    fn allowed_to_someone(&self, m: Marking) -> Allowed {
        alike(model::allowed_to_someone(&self.plain, m), peer::allowed_to_someone(&self.graph, m))
    }

    /// Is refused as the question is, and is kept as it is moved.
    fn take(&self, m: Marking, e: Entry) -> Moved {
        let moved = alike(model::take(&self.plain, m, e), peer::take(&self.graph, m, e));
        assert_eq!(self.ask(m, e), Asked { number: moved.number, waiting: moved.waiting }, "asked as moved");
        let (mut by_model, mut by_peer) = (m, m);
        let kept = alike(model::keep(&self.plain, &mut by_model, e), peer::keep(&self.graph, &mut by_peer, e));
        assert_eq!(kept, Kept { number: moved.number, waiting: moved.waiting }, "kept as moved");
        assert_eq!(alike(by_model, by_peer), if moved.number == 0 { moved.marking } else { m }, "where it lies");
        moved
    }

    fn finished(&self, m: Marking) -> Ending {
        alike(model::finished(&self.plain, m), peer::finished(&self.graph, m))
    }

    /// With what a store of so many bytes holds then. The peer leaves the rest of it alone.
    fn can_end(&self, m: Marking, store: usize) -> (Ends, Vec<Marking>) {
        let (ends, found) = model::can_end(&self.plain, m, store);
        let mut lent: Vec<u8> = (0..store).map(|place| place as u8 ^ 0xa5).collect();
        let after = [&found, &lent[found.len()..]].concat();
        let peers = peer::can_end(&self.graph, m, &mut lent);
        let (words, _) = found.as_chunks();
        let words: Vec<u64> = words.iter().map(|word| u64::from_le_bytes(*word)).collect();
        assert!(lent == after, "the stores of peer and model");
        (alike(ends, peers), words.chunks(3).map(|sets| Marking::new(sets[0], sets[1], sets[2])).collect())
    }

    fn run(&self, m: Marking, journal: &[u8]) -> Ran {
        alike(model::run(&self.plain, m, journal), peer::run(&self.graph, m, journal))
    }

    fn fold(&self, journal: &[u8]) -> Result<[u8; 65], u64> {
        filled(model::record::fold(&self.plain, journal), |out| peer::record::fold(&self.graph, journal, out))
    }

    fn restore(&self, record: &[u8], journal: &[u8], m: Marking) -> Ran {
        let right = model::record::restore(&self.plain, record, journal, m);
        alike(right, peer::record::restore(&self.graph, record, journal, m))
    }

    fn lap(&self, m: Marking, stem: &[u8], lap: &[u8]) -> Lapped {
        alike(model::lap(&self.plain, m, stem, lap), peer::lap(&self.graph, m, stem, lap))
    }

    fn track_start(&self, m: Marking) -> Tracked {
        alike(model::track_start(&self.plain, m), peer::track_start(&self.graph, m))
    }

    fn track_idle(&self, track: Track) -> Tracked {
        alike(model::track_idle(&self.plain, track), peer::track_idle(&self.graph, track))
    }

    fn track_step(&self, track: Track, e: Entry) -> Tracked {
        alike(model::track_step(&self.plain, track, e), peer::track_step(&self.graph, track, e))
    }
}

fn alike<A: PartialEq + std::fmt::Debug>(model: A, peer: A) -> A {
    assert_eq!(peer, model, "peer and model");
    model
}

/// A record that the peer writes to lent memory, or leaves that alone.
fn filled(right: Result<[u8; 65], u64>, peer: impl FnOnce(&mut [u8; 65]) -> u64) -> Result<[u8; 65], u64> {
    let before = [0x3c; 65];
    let mut out = before;
    let number = peer(&mut out);
    assert_eq!((number, out), (right.err().unwrap_or(0), right.unwrap_or(before)), "peer and model");
    right
}
