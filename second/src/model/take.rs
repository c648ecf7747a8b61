use super::{
    ask::{ask, ask_entry},
    targets, Graph, Marking,
};
use crate::data::{self, Asked, Entry, Kept, Moved};

/// A move from a marking to a marking: asks, and if the entry is allowed it is the marking after.
pub fn take(g: &Graph, handed_in: data::Marking, entry: Entry) -> Moved {
    let Asked { number, waiting } = ask(g, handed_in, entry);
    let marking = match number {
        0 => after(g, &Marking::read(handed_in), entry.step.into()).write(),
        11..=15 => handed_in,
        _ => data::Marking::default(),
    };
    Moved { number, waiting, marking }
}

/// The same on a marking that is kept: an allowed entry alters it where it lies.
pub fn keep(g: &Graph, kept: &mut data::Marking, entry: Entry) -> Kept {
    let Moved { number, waiting, marking } = take(g, *kept, entry);
    if number == 0 {
        *kept = marking;
    }
    Kept { number, waiting }
}

/// The move where graph and marking are as they should be: only the entry is looked at.
pub fn take_entry(g: &Graph, m: &Marking, entry: Entry) -> Result<Marking, Asked> {
    match ask_entry(g, m, entry) {
        Asked { number: 0, .. } => Ok(after(g, m, entry.step.into())),
        refused => Err(refused),
    }
}

/// In this order: done, included, excluded, due no more, and then due once more where it is its own response.
fn after(g: &Graph, m: &Marking, e: u64) -> Marking {
    let mut m = m.clone();
    m.done.insert(e);
    m.included.extend(targets(&g.includes, e));
    for excluded in targets(&g.excludes, e) {
        m.included.remove(&excluded);
    }
    m.due.remove(&e);
    m.due.extend(targets(&g.responses, e));
    m
}
