use crate::data;
use std::collections::{BTreeMap, BTreeSet};

/// Numbered things.
pub type Set = BTreeSet<u64>;

/// A relation between numbered things.
pub type Pairs = BTreeSet<(u64, u64)>;

/// A graph as in the paper: relations. Whatever is stored is kept, also what names something beyond the counts.
pub struct Graph {
    pub steps: u64,
    pub people: u64,
    pub roles: u64,
    pub actions: u64,
    /// These four hold arrows (from, to).
    pub conditions: Pairs,
    pub responses: Pairs,
    pub includes: Pairs,
    pub excludes: Pairs,
    /// (action, role): the action has the role.
    pub allows: Pairs,
    /// (person, role): the person holds the role.
    pub holds: Pairs,
    /// The paper's labelling: the action of each step.
    pub labels: BTreeMap<u64, u64>,
}

impl Graph {
    pub fn read(g: &data::Graph) -> Self {
        Graph {
            steps: g.steps,
            people: g.people,
            roles: g.roles,
            actions: g.actions,
            conditions: turned(&pairs(&g.conditions)),
            responses: pairs(&g.responses),
            includes: pairs(&g.includes),
            excludes: pairs(&g.excludes),
            allows: pairs(&g.allows),
            holds: pairs(&g.holds),
            labels: (0..).zip(g.labels).collect(),
        }
    }

    pub fn write(&self) -> data::Graph {
        data::Graph {
            steps: self.steps,
            people: self.people,
            roles: self.roles,
            actions: self.actions,
            conditions: rows(&turned(&self.conditions)),
            responses: rows(&self.responses),
            includes: rows(&self.includes),
            excludes: rows(&self.excludes),
            allows: rows(&self.allows),
            holds: rows(&self.holds),
            labels: std::array::from_fn(|step| self.labels.get(&(step as u64)).copied().unwrap_or(0)),
        }
    }

    /// A step has the roles of its action.
    pub fn has_role(&self, step: u64, role: u64) -> bool {
        self.labels.get(&step).is_some_and(|action| self.allows.contains(&(*action, role)))
    }
}

/// A row of conditions is kept for the step that waits, and the arrow comes from the step that it waits for.
fn turned(pairs: &Pairs) -> Pairs {
    pairs.iter().map(|&(a, b)| (b, a)).collect()
}

/// What goes with i: the steps that it points at, or the roles that it has.
pub fn targets(pairs: &Pairs, i: u64) -> Set {
    pairs.range((i, 0)..(i + 1, 0)).map(|(_, member)| *member).collect()
}

fn rows<const ROWS: usize>(pairs: &Pairs) -> [u64; ROWS] {
    std::array::from_fn(|i| stored(&targets(pairs, i as u64)))
}

fn pairs(rows: &[u64]) -> Pairs {
    (0..).zip(rows).flat_map(|(row, &set)| members(set).into_iter().map(move |member| (row, member))).collect()
}

/// The numbers in a stored set: s is in it when bit s is 1.
pub fn members(set: u64) -> Set {
    (0..64).filter(|&s| (set >> s) % 2 == 1).collect()
}

/// The other way round.
pub fn stored(set: &Set) -> u64 {
    set.iter().map(|s| 1 << s).sum()
}
