use super::bytes::record;
use crate::data::{self, Ran};
use crate::model::{check::refused, journal::entries, run::run_entries, Graph, Marking};

/// Applies a record and then runs the rest of a journal. Refusals 2, 4, 6, 7, 8, 10, then 16, then those of the earliest refused
/// entry.
pub fn restore(g: &Graph, bytes: &[u8], journal: &[u8], handed_in: data::Marking) -> Ran {
    let (m, record, entries) = (Marking::read(handed_in), record(g.steps, bytes), entries(journal));
    let given = record.as_ref().and_then(|record| record.give(&m));
    let numbers = [(7, entries.is_none()), (8, m.names_beyond(g.steps)), (10, record.is_none()), (16, given.is_none())];
    match (refused(g, &numbers), given) {
        (0, Some(given)) => run_entries(g, given, &entries.unwrap_or_default()),
        (16, _) => Ran { number: 16, marking: handed_in, ..Ran::default() },
        (number, _) => Ran { number, ..Ran::default() },
    }
}
