use super::{check::refused, graph::stored, lowest, Graph, Marking, Set};
use crate::data::{self, Asked, Entry};

/// Is the entry allowed? The number of what is against it, and with 15 every step that it waits for.
pub fn ask(g: &Graph, m: data::Marking, entry: Entry) -> Asked {
    let m = Marking::read(m);
    match refused(g, &[(8, m.names_beyond(g.steps))]) {
        0 => ask_entry(g, &m, entry),
        number => Asked { number, waiting: 0 },
    }
}

/// The same where graph and marking are as they should be: only the entry is looked at.
pub fn ask_entry(g: &Graph, m: &Marking, entry: Entry) -> Asked {
    let [person, step, role] = [entry.person, entry.step, entry.role].map(u64::from);
    let numbers = [
        (11, person >= g.people || step >= g.steps || role >= g.roles),
        (12, !g.holds.contains(&(person, role))),
        (13, !g.has_role(step, role)),
        (14, !m.included.contains(&step)),
    ];
    match lowest(&numbers) {
        0 => ask_waiting(&waiting(g, m, step)),
        number => Asked { number, waiting: 0 },
    }
}

/// The last number that an entry can have goes with what it waits for.
fn ask_waiting(waits_for: &Set) -> Asked {
    Asked { number: lowest(&[(15, !waits_for.is_empty())]), waiting: stored(waits_for) }
}

/// The steps with a condition arrow to this one that are included and have not been done.
pub fn waiting(g: &Graph, m: &Marking, step: u64) -> Set {
    let open = m.included.difference(&m.done).copied();
    open.filter(|&a| g.conditions.contains(&(a, step))).collect()
}
