use super::{check::refused, journal::entries, take::take_entry, Graph, Marking};
use crate::data::{self, Asked, Entry, Ran};

/// The entries one after the other, up to the first that is not allowed.
pub fn run(g: &Graph, m: data::Marking, journal: &[u8]) -> Ran {
    let (m, entries) = (Marking::read(m), entries(journal));
    match refused(g, &[(7, entries.is_none()), (8, m.names_beyond(g.steps))]) {
        0 => run_entries(g, m, &entries.unwrap_or_default()),
        number => Ran { number, ..Ran::default() },
    }
}

/// The same where graph, journal and marking are as they should be.
pub fn run_entries(g: &Graph, mut m: Marking, all: &[Entry]) -> Ran {
    for (entries, entry) in (0..).zip(all) {
        match take_entry(g, &m, *entry) {
            Ok(after) => m = after,
            Err(Asked { number, waiting }) => return Ran { number, waiting, entries, marking: m.write() },
        }
    }
    Ran { entries: all.len() as u64, marking: m.write(), ..Ran::default() }
}
