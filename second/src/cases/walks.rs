//! Journals by walking a graph: entries that are allowed, one after the other, and entries that are not.

use super::{
    entries::{fitting, known, make_unknown},
    graphs::{first, roles_of_steps},
    Dice,
};
use crate::data::{Entry, Graph, Marking};
use crate::peer;

/// Moves the marking by allowed entries and writes them down, each chosen among all steps that may be taken. Ends after so many,
/// or where no step may be.
pub fn walk(dice: &mut Dice, g: &Graph, m: &mut Marking, entries: usize, journal: &mut Vec<u8>) {
    let usable = usable(g);
    for _ in 0..entries {
        let open = usable & m.included & !waiting(g, m);
        let Some(step) = dice.member(open) else { return };
        let entry = by_someone(dice, g, step);
        if peer::keep(g, m, entry).number != 0 {
            return;
        }
        push(journal, entry);
    }
}

pub fn push(journal: &mut Vec<u8>, Entry { person, step, role }: Entry) {
    journal.extend([person, step, role]);
}

/// The roles that some person holds.
fn held(g: &Graph) -> u64 {
    g.holds.iter().fold(0, |union, roles| union | roles)
}

/// The steps that somebody has a role for.
fn usable(g: &Graph) -> u64 {
    let (held, roles) = (held(g), roles_of_steps(g));
    steps_where(|step| roles[step] & held != 0)
}

fn waiting(g: &Graph, m: &Marking) -> u64 {
    steps_where(|step| g.conditions[step] & m.included & !m.done != 0)
}

fn steps_where(holds: impl Fn(usize) -> bool) -> u64 {
    (0..64).filter(|&step| holds(step)).fold(0, |set, step| set | 1 << step)
}

/// The step, in a role that it has and by a person who holds that, as far as there are such.
fn by_someone(dice: &mut Dice, g: &Graph, step: u8) -> Entry {
    in_a_role(dice, g, step, roles_of_steps(g)[usize::from(step % 64)])
}

/// The same in one of these roles.
fn in_a_role(dice: &mut Dice, g: &Graph, step: u8, roles: u64) -> Entry {
    let other = known(dice, g);
    let role = dice.member(roles & held(g)).unwrap_or(other.role);
    let holders =
        (0..16).filter(|&person| g.holds[person] >> (role % 64) & 1 == 1).fold(0, |set, person| set | 1 << person);
    Entry { person: dice.member(holders).unwrap_or(other.person), step, role }
}

/// An entry that is refused at this marking in one of the five ways, where the graph has room for it. One that is unknown may be
/// so by its step alone, in a role of action 0, since 0 is what is stored for a number that is no step.
pub fn refused(dice: &mut Dice, g: &Graph, m: &Marking) -> Entry {
    let mut entry = fitting(dice, g);
    match dice.below(6) {
        0 => make_unknown(dice, g, &mut entry),
        5 => {
            let step = dice.between(g.steps.min(64) as usize, 66) as u8;
            entry = in_a_role(dice, g, step, g.allows[0]);
        }
        1 => {
            let lacking = !g.holds[usize::from(entry.person % 16)] & first(g.roles);
            entry.role = dice.member(lacking).unwrap_or(entry.role);
        }
        2 => {
            let roles = roles_of_steps(g);
            let without = steps_where(|step| roles[step] >> (entry.role % 64) & 1 == 0) & first(g.steps);
            entry.step = dice.member(without).unwrap_or(entry.step);
        }
        3 => {
            let excluded = usable(g) & !m.included;
            entry = dice.member(excluded).map_or(entry, |step| by_someone(dice, g, step));
        }
        _ => {
            let waits = usable(g) & m.included & waiting(g, m);
            entry = dice.member(waits).map_or(entry, |step| by_someone(dice, g, step));
        }
    }
    entry
}
