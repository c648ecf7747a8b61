use super::{check::sound, Refusal};
use crate::data::{Asked, Entry, Graph, Marking};

pub fn ask(g: &Graph, m: Marking, e: Entry) -> Asked {
    match asked(g, m, e) {
        Ok(()) => Asked { number: 0, waiting: 0 },
        Err(refusal) => Asked { number: refusal.number(), waiting: refusal.waiting() },
    }
}

#[inline]
fn asked(g: &Graph, m: Marking, e: Entry) -> Result<(), Refusal> {
    sound(g, m)?;
    ask_entry(g, m, e)
}

/// The question on a graph and a marking that have been checked.
#[inline(always)]
pub fn ask_entry(g: &Graph, m: Marking, e: Entry) -> Result<(), Refusal> {
    if !known(g, e) {
        return Err(Refusal::Unknown);
    }
    let (person, step) = (usize::from(e.person), usize::from(e.step));
    let role = 1u64 << e.role;
    if g.holds[person] & role == 0 {
        return Err(Refusal::NotHeld);
    }
    if roles_of(g, step) & role == 0 {
        return Err(Refusal::NotOnStep);
    }
    if m.included & 1 << e.step == 0 {
        return Err(Refusal::Excluded);
    }
    let waiting = g.conditions[step] & m.included & !m.done;
    if waiting != 0 {
        return Err(Refusal::Waits(waiting));
    }
    Ok(())
}

/// The roles in which the step can be taken.
#[inline(always)]
pub fn roles_of(g: &Graph, step: usize) -> u64 {
    g.allows[row_of(g.labels[step])]
}

/// The row of an action. It is below 64 where the graph has been checked, and this tells the compiler.
#[inline(always)]
pub fn row_of(label: u64) -> usize {
    label as usize % 64
}

/// Person, step and role are below their counts, each of which fits into a byte where the graph has been checked.
#[inline]
pub fn known(g: &Graph, e: Entry) -> bool {
    e.person < g.people as u8 && e.step < g.steps as u8 && e.role < g.roles as u8
}
