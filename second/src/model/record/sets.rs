use super::{
    cell::{Cell, State},
    out_of_range, Record,
};
use crate::data::Record as Stored;
use crate::model::{members, Set};

/// The never mark and the eight sets of a stored record.
struct Sets {
    never: bool,
    need_in: Set,
    need_ex: Set,
    need_out_or_ex: Set,
    done: Set,
    due_set: Set,
    due_clear: Set,
    in_set: Set,
    in_clear: Set,
}

impl Sets {
    fn read(stored: &Stored) -> Self {
        Sets {
            never: stored.never == 1,
            need_in: members(stored.need_in),
            need_ex: members(stored.need_ex),
            need_out_or_ex: members(stored.need_out_or_ex),
            done: members(stored.done),
            due_set: members(stored.due_set),
            due_clear: members(stored.due_clear),
            in_set: members(stored.in_set),
            in_clear: members(stored.in_clear),
        }
    }
}

/// Never is 0 or 1, and with 1 there is nothing else; every step is below n; six pairs of sets have no step in common. Where no
/// graph has n steps, there is no record for it either.
pub fn well_formed(n: u64, stored: &Stored) -> bool {
    let sets = Sets::read(stored);
    let apart = [
        (&sets.need_in, &sets.need_out_or_ex),
        (&sets.need_ex, &sets.need_out_or_ex),
        (&sets.done, &sets.need_ex),
        (&sets.in_set, &sets.need_in),
        (&sets.in_set, &sets.in_clear),
        (&sets.due_set, &sets.due_clear),
    ];
    let [never, all @ ..] = stored.words();
    never <= 1
        && !out_of_range(n)
        && all.iter().all(|set| members(*set).iter().all(|s| *s < n))
        && apart.iter().all(|(a, b)| a.is_disjoint(b))
        && (!sets.never || all == [0; 8])
}

impl Record {
    /// Of a well-formed record: what each step needs, and what then becomes of it. Where a set both loses and gains, it gains
    /// last.
    pub fn read(steps: u64, stored: &Stored) -> Self {
        let sets = Sets::read(stored);
        let cell = |s: u64| {
            Cell::new(|State { done, due, included }| {
                let applies = !sets.never
                    && (!sets.need_in.contains(&s) || included)
                    && (!sets.need_ex.contains(&s) || done)
                    && (!sets.need_out_or_ex.contains(&s) || !included || done);
                applies.then_some(State {
                    done: done || sets.done.contains(&s),
                    due: (due && !sets.due_clear.contains(&s)) || sets.due_set.contains(&s),
                    included: (included && !sets.in_clear.contains(&s)) || sets.in_set.contains(&s),
                })
            })
        };
        Record { cells: (0..steps).map(cell).collect() }
    }

    /// The one well-formed record that does what the table says. A step has a need where the table does not allow the states that
    /// lack it, and a change where the table makes it in some state that it allows.
    pub fn write(&self) -> Stored {
        if self.is_never() {
            return Stored { never: 1, ..Stored::default() };
        }
        let set = |belongs: &dyn Fn(&Cell) -> bool| {
            (0..).zip(&self.cells).filter(|(_, cell)| belongs(cell)).map(|(s, _)| 1 << s).sum()
        };
        let need_in = |cell: &Cell| !cell.allows(|state| !state.included);
        let need_ex = |cell: &Cell| !cell.allows(|state| !state.done);
        let open_and_included = |cell: &Cell| cell.allows(|state| !state.done && state.included);
        Stored {
            never: 0,
            need_in: set(&need_in),
            need_ex: set(&need_ex),
            need_out_or_ex: set(&|cell| !need_in(cell) && !need_ex(cell) && !open_and_included(cell)),
            done: set(&|cell| cell.changes(|before, after| !before.done && after.done)),
            due_set: set(&|cell| cell.changes(|before, after| !before.due && after.due)),
            due_clear: set(&|cell| cell.changes(|before, after| before.due && !after.due)),
            in_set: set(&|cell| cell.changes(|before, after| !before.included && after.included)),
            in_clear: set(&|cell| cell.changes(|before, after| before.included && !after.included)),
        }
    }
}
