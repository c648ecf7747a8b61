use std::fmt;

/// A graph as one block of words. Member s of a set is bit s.
///
/// Roles belong to actions, and every step has one action, so that steps with the same action cannot differ in their roles: those
/// of step s are `allows[labels[s]]`.
#[repr(C)]
#[derive(Clone, PartialEq, Eq)]
pub struct Graph {
    pub steps: u64,
    pub people: u64,
    pub roles: u64,
    pub actions: u64,
    /// Row b is the set of steps that b waits for.
    pub conditions: [u64; 64],
    /// Row a of this and the next two is the set of steps that a points at.
    pub responses: [u64; 64],
    pub includes: [u64; 64],
    pub excludes: [u64; 64],
    /// The role set of each action.
    pub allows: [u64; 64],
    /// The role set of each person.
    pub holds: [u64; 16],
    /// The action of each step: its number, and no set.
    pub labels: [u64; 64],
}

impl Graph {
    /// A graph of these counts without arrows and roles, in which every step is an action of its own. Steps that are to share an
    /// action get the same number in `labels`, and `actions` becomes how many there are.
    pub const fn bare(steps: u64, people: u64, roles: u64) -> Self {
        let none = [0; 64];
        Graph {
            steps,
            people,
            roles,
            actions: steps,
            conditions: none,
            responses: none,
            includes: none,
            excludes: none,
            allows: none,
            holds: [0; 16],
            labels: own_actions(steps),
        }
    }
}

/// Counts may be any words, and there are 64 rows.
const fn own_actions(steps: u64) -> [u64; 64] {
    let mut labels = [0; 64];
    let mut s = 0;
    while s < 64 && (s as u64) < steps {
        labels[s] = s as u64;
        s += 1;
    }
    labels
}

/// Only the rows that hold something, in hexadecimal: a full graph still has to be read by a person.
impl fmt::Debug for Graph {
    fn fmt(&self, f: &mut fmt::Formatter<'_>) -> fmt::Result {
        let Graph { steps, people, roles, actions, .. } = self;
        write!(f, "{steps} steps, {people} people, {roles} roles, {actions} actions")?;
        rows(f, "conditions", &self.conditions)?;
        rows(f, "responses", &self.responses)?;
        rows(f, "includes", &self.includes)?;
        rows(f, "excludes", &self.excludes)?;
        rows(f, "allows", &self.allows)?;
        rows(f, "holds", &self.holds)?;
        rows(f, "labels", &self.labels)
    }
}

fn rows(f: &mut fmt::Formatter<'_>, name: &str, rows: &[u64]) -> fmt::Result {
    write!(f, "; {name}")?;
    let mut stored = rows.iter().enumerate().filter(|(_, row)| **row != 0);
    stored.try_for_each(|(i, row)| write!(f, " {i}:{row:x}"))
}
