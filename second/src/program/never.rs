use super::entries::AnyEntry;
use crate::data::Entry;
use crate::model::{self, Graph};

/// The first entry of a journal that no marking could allow, with the reason; for a journal whose record is never.
pub fn because(g: &Graph, journal: &[u8]) -> Option<(usize, String)> {
    let entries = model::entries(journal)?;
    (0..entries.len()).find_map(|at| Some((at, format!("{}, {}", AnyEntry::from(entries[at]), why(g, &entries, at)?))))
}

fn why(g: &Graph, entries: &[Entry], at: usize) -> Option<String> {
    let Entry { person, step, role } = entries[at];
    let [person, step, role] = [person, step, role].map(u64::from);
    if person >= g.people || step >= g.steps || role >= g.roles {
        return Some("no such person, step or role".into());
    }
    if !g.holds.contains(&(person, role)) {
        return Some("the person does not hold this role".into());
    }
    if !g.has_role(step, role) {
        return Some("the step's action does not have this role".into());
    }
    let changed = |arrows: &std::collections::BTreeSet<(u64, u64)>| {
        entries[..at].iter().rposition(|entry| arrows.contains(&(entry.step.into(), step)))
    };
    let excluded = changed(&g.excludes)?;
    let included = changed(&g.includes).is_some_and(|included| included > excluded);
    (!included).then(|| format!("entry {excluded} has excluded the step, and none since has included it"))
}
