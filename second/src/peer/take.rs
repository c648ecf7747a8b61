use super::{ask::ask_entry, check::sound, Refusal};
use crate::data::{Entry, Graph, Kept, Marking, Moved};

pub fn take(g: &Graph, m: Marking, e: Entry) -> Moved {
    match taken(g, m, e) {
        Ok(marking) => Moved { number: 0, waiting: 0, marking },
        Err(refusal) => Moved { number: refusal.number(), waiting: refusal.waiting(), marking: refusal.leaves(m) },
    }
}

/// Moves the marking where it lies, or leaves it as it is.
pub fn keep(g: &Graph, m: &mut Marking, e: Entry) -> Kept {
    match taken(g, *m, e) {
        Ok(after) => {
            *m = after;
            Kept { number: 0, waiting: 0 }
        }
        Err(refusal) => Kept { number: refusal.number(), waiting: refusal.waiting() },
    }
}

#[inline]
fn taken(g: &Graph, m: Marking, e: Entry) -> Result<Marking, Refusal> {
    sound(g, m)?;
    take_entry(g, m, e)
}

/// The move on a graph and a marking that have been checked.
#[inline(always)]
pub fn take_entry(g: &Graph, m: Marking, e: Entry) -> Result<Marking, Refusal> {
    ask_entry(g, m, e)?;
    let (step, this) = (usize::from(e.step), 1u64 << e.step);
    Ok(Marking {
        done: m.done | this,
        due: (m.due & !this) | g.responses[step],
        included: (m.included | g.includes[step]) & !g.excludes[step],
    })
}
