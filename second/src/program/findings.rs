//! What made a number hold: the two lines below a refusal. Written from docs/FORMATS.md, number by number, as a reader that stops at the
//! first thing that is not as it should be.

mod records;
mod sheets;

pub use records::{record, stated, unapplied};
pub use sheets::sheet;

use super::{entries::AnyEntry, lines::set};
use crate::data;
use crate::model::{members, targets, waiting, Graph, Marking};
use std::collections::BTreeSet;
use std::fmt::Display;

#[derive(Clone, PartialEq, Eq, Debug)]
pub struct Finding {
    pub found: String,
    pub expected: String,
}

/// Nothing to say, or the first thing that there is.
type Look = Result<(), Finding>;

fn see(right: bool, found: impl Display, expected: impl Display) -> Look {
    if right {
        return Ok(());
    }
    Err(Finding { found: found.to_string(), expected: expected.to_string() })
}

/// Input is not read further than that.
const READ: usize = 65_536;

fn length(bytes: &[u8]) -> String {
    match bytes.len() {
        READ.. => format!("{READ} bytes or more"),
        bytes => format!("{bytes} bytes"),
    }
}

fn all(what: &str, count: u64) -> String {
    format!("{what} 0 to {}", count - 1)
}

/// Low byte first.
fn number(bytes: &[u8]) -> u64 {
    bytes.iter().rfold(0, |number, byte| 256 * number + u64::from(*byte))
}

/// The members of a stored set that are at or beyond a count.
fn beyond(stored: u64, count: u64) -> BTreeSet<u64> {
    members(stored).split_off(&count)
}

fn marking_sets(sets: [u64; 3], steps: u64, of: &str) -> Look {
    ["done", "due", "included"].into_iter().zip(sets).try_for_each(|(name, stored)| {
        let beyond = beyond(stored, steps);
        see(beyond.is_empty(), format_args!("steps {} in {name}{of}", set(&beyond)), all("steps", steps))
    })
}

/// Number 7.
pub fn journal(journal: &[u8]) -> Option<Finding> {
    let right = journal.len().is_multiple_of(3) && journal.len() <= 65_535;
    see(right, length(journal), "a multiple of 3, at most 65535").err()
}

/// Number 7 of a journal that an entry is to be added to.
pub fn full(journal: &[u8]) -> Option<Finding> {
    let found = format!("{}, a full journal", length(journal));
    see(journal.len() < 65_535, found, "at most 65532, so that an entry can be added").err()
}

/// Number 17.
pub fn lap(lap: &[u8]) -> Option<Finding> {
    see(!lap.is_empty(), "the lap has 0 entries", "at least 1").err()
}

/// Number 8.
pub fn marking(m: data::Marking, steps: u64) -> Option<Finding> {
    marking_sets([m.done, m.due, m.included], steps, "").err()
}

/// Number 11 of a person without an entry.
pub fn person(g: &Graph, person: u64) -> Option<Finding> {
    known_person(g, person).err()
}

fn known_person(g: &Graph, person: u64) -> Look {
    see(person < g.people, format_args!("person {person}"), all("people", g.people))
}

/// Number 22 of a store for so many markings.
pub fn store(markings: u64) -> Option<Finding> {
    see((1..=2_048).contains(&markings), format_args!("a store for {markings} markings"), "1 to 2048").err()
}

/// Number 30 of a mast with so many arms.
pub fn arms(arms: u64) -> Option<Finding> {
    see((2..=16).contains(&arms), format_args!("{arms} arms"), "2 to 16").err()
}

/// Why an entry is not allowed at a marking, with a number from 11 to 15.
pub fn entry(g: &Graph, m: &Marking, entry: impl Into<AnyEntry>) -> Option<Finding> {
    not_allowed(g, m, entry.into()).err()
}

fn not_allowed(g: &Graph, m: &Marking, AnyEntry { person, step, role }: AnyEntry) -> Look {
    known_person(g, person)?;
    see(step < g.steps, format_args!("step {step}"), all("steps", g.steps))?;
    see(role < g.roles, format_args!("role {role}"), all("roles", g.roles))?;
    let among = |whose: &str, roles: BTreeSet<u64>| {
        see(
            roles.contains(&role),
            format_args!("{whose}, roles {}", set(&roles)),
            format_args!("role {role} among them"),
        )
    };
    among(&format!("person {person}"), targets(&g.holds, person))?;
    let action = g.labels[&step];
    among(&format!("step {step}, action {action}"), targets(&g.allows, action))?;
    see(m.included.contains(&step), format_args!("step {step}, excluded"), "included")?;
    let open = waiting(g, m, step);
    let found = format!("steps {}, included and not done", set(&open));
    see(open.is_empty(), found, format_args!("done before step {step}"))
}
