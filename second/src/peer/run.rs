use super::{
    check::{inside, well_formed},
    journal::{entries, entry},
    take::take_entry,
    Refusal,
};
use crate::data::{Graph, Marking, Ran};

pub fn run(g: &Graph, m: Marking, journal: &[u8]) -> Ran {
    match ready(g, m, journal) {
        Ok(entries) => run_entries(g, m, entries),
        Err(refusal) => Ran { number: refusal.number(), ..Ran::default() },
    }
}

/// The entries, if graph, journal and marking are as they should be.
pub fn ready<'a>(g: &Graph, m: Marking, journal: &'a [u8]) -> Result<&'a [[u8; 3]], Refusal> {
    well_formed(g)?;
    let entries = entries(journal)?;
    inside(g.steps, m)?;
    Ok(entries)
}

/// The run on a graph and a marking that have been checked.
pub fn run_entries(g: &Graph, mut m: Marking, entries: &[[u8; 3]]) -> Ran {
    for (index, bytes) in entries.iter().enumerate() {
        match take_entry(g, m, entry(bytes)) {
            Ok(after) => m = after,
            Err(refusal) => {
                let (number, waiting) = (refusal.number(), refusal.waiting());
                return Ran { number, waiting, entries: index as u64, marking: m };
            }
        }
    }
    Ran { number: 0, waiting: 0, entries: entries.len() as u64, marking: m }
}
