use super::graph::{members, stored, Set};
use crate::data;

/// Three sets of steps: Ex, Re, In.
#[derive(Clone, PartialEq, Eq)]
pub struct Marking {
    pub done: Set,
    pub due: Set,
    pub included: Set,
}

impl Marking {
    pub fn read(m: data::Marking) -> Self {
        Marking { done: members(m.done), due: members(m.due), included: members(m.included) }
    }

    pub fn write(&self) -> data::Marking {
        data::Marking { done: stored(&self.done), due: stored(&self.due), included: stored(&self.included) }
    }

    /// Number 8: the marking names a step beyond the graph.
    pub fn names_beyond(&self, steps: u64) -> bool {
        [&self.done, &self.due, &self.included].iter().any(|set| set.iter().any(|s| *s >= steps))
    }

    /// The steps due and included.
    pub fn pending(&self) -> Set {
        self.due.intersection(&self.included).copied().collect()
    }
}
