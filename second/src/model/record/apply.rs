use super::{bytes::record, cell::State, out_of_range, Record};
use crate::data::{self, Moved};
use crate::model::{lowest, Marking};

/// What the record makes of the marking. Refusals 2, 8, 10, 16.
pub fn apply(n: u64, bytes: &[u8], handed_in: data::Marking) -> Moved {
    let (m, record) = (Marking::read(handed_in), record(n, bytes));
    let given = record.as_ref().and_then(|record| record.give(&m));
    let numbers = [(2, out_of_range(n)), (8, m.names_beyond(n)), (10, record.is_none()), (16, given.is_none())];
    match (lowest(&numbers), given) {
        (0, Some(after)) => Moved { marking: after.write(), ..Moved::default() },
        (16, _) => Moved { number: 16, waiting: 0, marking: handed_in },
        (number, _) => Moved { number, ..Moved::default() },
    }
}

impl Record {
    /// What the record makes of a marking, if it applies there.
    pub fn give(&self, m: &Marking) -> Option<Marking> {
        let mut after = m.clone();
        for (s, cell) in (0..).zip(&self.cells) {
            let sets = [&mut after.done, &mut after.due, &mut after.included];
            let [done, due, included] = sets.each_ref().map(|set| set.contains(&s));
            let State { done, due, included } = cell.of(State { done, due, included })?;
            for (set, is_in) in sets.into_iter().zip([done, due, included]) {
                if is_in {
                    set.insert(s);
                } else {
                    set.remove(&s);
                }
            }
        }
        Some(after)
    }
}
