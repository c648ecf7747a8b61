use super::{
    bytes::written,
    cell::{Cell, State},
    Record,
};
use crate::data::Entry;
use crate::model::{check::refused, journal::entries, Graph};

/// The record of a journal. Refusals 2, 4, 6, 7: an entry that no marking could allow folds to never.
pub fn fold(g: &Graph, journal: &[u8]) -> Result<[u8; 65], u64> {
    let entries = entries(journal);
    match refused(g, &[(7, entries.is_none())]) {
        0 => {
            let empty = Record { cells: (0..g.steps).map(|_| Cell::idle()).collect() };
            let all = entries.iter().flatten().fold(empty, |record, entry| record.then(&of_entry(g, *entry)));
            Ok(written(&all))
        }
        number => Err(number),
    }
}

/// What one entry does to each step.
fn of_entry(g: &Graph, entry: Entry) -> Record {
    let [person, e, role] = [entry.person, entry.step, entry.role].map(u64::from);
    let known = person < g.people && e < g.steps && role < g.roles;
    let possible = known && g.holds.contains(&(person, role)) && g.has_role(e, role);
    let cell = |s| if possible { of_step(g, e, s) } else { Cell::never() };
    Record { cells: (0..g.steps).map(cell).collect() }
}

/// What step e does to step s: the rules of a single move, seen from s.
fn of_step(g: &Graph, e: u64, s: u64) -> Cell {
    let waited_for = g.conditions.contains(&(s, e));
    let [answered, includes, excludes] =
        [&g.responses, &g.includes, &g.excludes].map(|arrows| arrows.contains(&(e, s)));
    Cell::new(|State { done, due, included }| {
        let allowed = (s != e || included) && (!waited_for || !included || done);
        allowed.then_some(State {
            done: done || s == e,
            due: answered || (due && s != e),
            included: (included || includes) && !excludes,
        })
    })
}
