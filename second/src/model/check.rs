use super::{graph::Pairs, lowest, Graph};

/// 0 when the graph is well-formed, else 2, 4 or 6.
pub fn check(g: &Graph) -> u64 {
    refused(g, &[])
}

/// The lowest that holds of a graph's own numbers, which every call with a graph looks at, and of the call's others; or 0.
pub fn refused(g: &Graph, more: &[(u64, bool)]) -> u64 {
    let numbers = [(2, counts_out_of_range(g)), (4, names_beyond(g)), (6, includes_and_excludes(g))];
    lowest(&[&numbers, more].concat())
}

pub fn counts_out_of_range(g: &Graph) -> bool {
    let out_of = |count: u64, most: u64| !(1..=most).contains(&count);
    out_of(g.steps, 64) || out_of(g.people, 16) || out_of(g.roles, 16) || out_of(g.actions, 64)
}

/// A pair that is not within the counts either names something beyond them or is stored for a number beyond them.
fn names_beyond(g: &Graph) -> bool {
    let outside = |pairs: &Pairs, first: u64, second: u64| pairs.iter().any(|(a, b)| *a >= first || *b >= second);
    outside(&g.allows, g.actions, g.roles)
        || outside(&g.holds, g.people, g.roles)
        || labels_beyond(g)
        || [&g.conditions, &g.responses, &g.includes, &g.excludes]
            .iter()
            .any(|arrows| outside(arrows, g.steps, g.steps))
}

/// The action of a step is one of those that there are. A number that is no step has no action, which is stored as 0.
fn labels_beyond(g: &Graph) -> bool {
    let beyond = |(step, action): (&u64, &u64)| if *step < g.steps { *action >= g.actions } else { *action != 0 };
    g.labels.iter().any(beyond)
}

pub fn includes_and_excludes(g: &Graph) -> bool {
    !g.includes.is_disjoint(&g.excludes)
}
