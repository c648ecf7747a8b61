use super::{ask::row_of, check::sound, Refusal};
use crate::data::{Allowed, Graph, Marking};

pub fn allowed_to(g: &Graph, m: Marking, person: u64) -> Allowed {
    told(to_person(g, m, person))
}

pub fn allowed_to_someone(g: &Graph, m: Marking) -> Allowed {
    told(to_someone(g, m))
}

#[inline]
fn told(steps: Result<u64, Refusal>) -> Allowed {
    match steps {
        Ok(steps) => Allowed { number: 0, steps },
        Err(refusal) => Allowed { number: refusal.number(), steps: 0 },
    }
}

#[inline]
fn to_person(g: &Graph, m: Marking, person: u64) -> Result<u64, Refusal> {
    sound(g, m)?;
    if person >= g.people {
        return Err(Refusal::Unknown);
    }
    Ok(in_roles(g, m, g.holds[person as usize]))
}

#[inline]
fn to_someone(g: &Graph, m: Marking) -> Result<u64, Refusal> {
    sound(g, m)?;
    Ok(in_roles(g, m, g.holds.iter().fold(0, |union, roles| union | roles)))
}

/// The steps that one of these roles is enough for, of a graph and a marking that have been checked.
#[inline]
fn in_roles(g: &Graph, m: Marking, roles: u64) -> u64 {
    let (rows, open) = (g.steps as usize, m.included & !m.done);
    let mut steps = 0;
    // From the last row on, so that each is a bit behind those above it. Both are asked of it, without a branch: one that is guessed
    // wrong costs more than a row.
    for (conditions, label) in g.conditions[..rows].iter().zip(&g.labels[..rows]).rev() {
        let allowed = (conditions & open == 0) & (g.allows[row_of(*label)] & roles != 0);
        steps = steps << 1 | u64::from(allowed);
    }
    steps & m.included
}
