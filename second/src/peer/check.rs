use super::{number, Refusal};
use crate::data::{Graph, Marking};

pub fn check(g: &Graph) -> u64 {
    number(well_formed(g))
}

pub fn well_formed(g: &Graph) -> Result<(), Refusal> {
    check_counts(g.steps, g.people, g.roles, g.actions)?;
    let [steps, people, actions] = [g.steps, g.people, g.actions].map(|count| count as usize);
    let (all_steps, all_roles) = (first(g.steps), first(g.roles));
    if [&g.conditions, &g.responses, &g.includes, &g.excludes].iter().any(|rows| beyond(*rows, steps, all_steps))
        || beyond(&g.allows, actions, all_roles)
        || beyond(&g.holds, people, all_roles)
        || labels_beyond(&g.labels, steps, g.actions)
    {
        return Err(Refusal::Beyond);
    }
    if g.includes.iter().zip(&g.excludes).fold(0, |both, (i, e)| both | (i & e)) != 0 {
        return Err(Refusal::Both);
    }
    Ok(())
}

/// Of a graph and a marking.
pub fn sound(g: &Graph, m: Marking) -> Result<(), Refusal> {
    well_formed(g)?;
    inside(g.steps, m)
}

#[inline]
pub fn check_counts(steps: u64, people: u64, roles: u64, actions: u64) -> Result<(), Refusal> {
    let fits = |count: u64, most: u64| (1..=most).contains(&count);
    if fits(steps, 64) && fits(people, 16) && fits(roles, 16) && fits(actions, 64) {
        return Ok(());
    }
    Err(Refusal::Counts)
}

/// Refuses a marking that names a step beyond so many, which is a number from 1 to 64.
#[inline]
pub fn inside(steps: u64, m: Marking) -> Result<(), Refusal> {
    if (m.done | m.due | m.included) & !first(steps) != 0 {
        return Err(Refusal::Outside);
    }
    Ok(())
}

/// The set of the numbers below `count`, which is 1 to 64.
#[inline]
pub fn first(count: u64) -> u64 {
    u64::MAX >> (64 - count)
}

/// Something is named that is not in `all`, or stored in a row at or beyond `count`.
fn beyond(rows: &[u64], count: usize, all: u64) -> bool {
    let (used, unused) = rows.split_at(count);
    union(used) & !all != 0 || union(unused) != 0
}

/// A step has an action at or beyond so many, which is a number from 1 to 64, or one is stored in a row at or beyond `steps`.
fn labels_beyond(labels: &[u64; 64], steps: usize, actions: u64) -> bool {
    let (used, unused) = labels.split_at(steps);
    // Taken from the last action, a larger one leaves the highest bit set, unless it is so large that it has that bit itself.
    // Comparing each would need vectors that not every machine has.
    let signs = used.iter().fold(0, |signs, label| signs | label | (actions - 1).wrapping_sub(*label));
    signs >> 63 != 0 || union(unused) != 0
}

/// Folding over every row, instead of stopping at the first bad one, lets the compiler use vectors.
#[inline]
fn union(rows: &[u64]) -> u64 {
    rows.iter().fold(0, |union, row| union | row)
}
