//! What was seen of one call.

use crate::lent;
use second::data::Graph;
use second::{model, peer};
use std::fmt::{self, Debug};

/// A case, and the model's reading of its graph, which is made once for all calls.
pub struct Input<C> {
    pub case: C,
    pub graph: model::Graph,
    /// The number of steps, if the graph is well-formed.
    pub size: Option<u64>,
}

impl<C> Input<C> {
    pub fn new(case: C, graph: fn(&C) -> &Graph) -> Self {
        let given = graph(&case);
        let size = (peer::check(given) == 0).then_some(given.steps);
        Input { graph: model::Graph::read(given), case, size }
    }
}

impl<C: Debug> Debug for Input<C> {
    fn fmt(&self, f: &mut fmt::Formatter<'_>) -> fmt::Result {
        self.case.fmt(f)
    }
}

/// Which of the call's answers the model gives, one or more on an input, and how the others differ from what it says.
pub struct Seen {
    pub kinds: Vec<u64>,
    pub faults: Vec<String>,
}

impl Seen {
    pub fn new(kind: u64) -> Self {
        Seen { kinds: vec![kind], faults: Vec::new() }
    }

    /// Of more than one call on an input: with each go the words by which its faults are told.
    pub fn all(each: impl Iterator<Item = (String, Seen)>) -> Self {
        let mut all = Seen { kinds: Vec::new(), faults: Vec::new() };
        for (by, seen) in each {
            all.kinds.extend(seen.kinds);
            all.faults.extend(seen.faults.iter().map(|fault| format!("{by}: {fault}")));
        }
        all
    }

    pub fn expect<T: PartialEq + Debug + ?Sized>(&mut self, who: &str, right: &T, given: &T) {
        if right != given {
            self.faults.push(format!("{who}: {given:?}, where {right:?} is right"));
        }
    }

    /// Puts the graph before both. The box gets one of its own, which must be the same afterwards.
    pub fn ask<A: PartialEq + Debug>(
        &mut self,
        graph: &Graph,
        right: &A,
        ours: impl FnOnce(&Graph) -> A,
        peer: impl FnOnce(&Graph) -> A,
    ) {
        let lent = lent::Words::new(graph.clone());
        self.expect("ours", right, &ours(&lent.content));
        lent.expect(self, "the graph lent to ours", graph);
        self.expect("peer", right, &peer(graph));
    }
}
