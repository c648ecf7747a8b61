use super::{bytes::parse, stated};
use crate::data::{Marking, Moved, Record};
use crate::peer::{check::inside, Refusal};

/// What the record in the bytes makes of the marking.
pub fn apply(n: u64, bytes: &[u8], m: Marking) -> Moved {
    match given(n, bytes, m) {
        Ok(marking) => Moved { number: 0, waiting: 0, marking },
        Err(refusal) => Moved { number: refusal.number(), waiting: 0, marking: refusal.leaves(m) },
    }
}

#[inline]
fn given(n: u64, bytes: &[u8], m: Marking) -> Result<Marking, Refusal> {
    stated(n)?;
    inside(n, m)?;
    applied(&parse(n, bytes)?, m)
}

#[inline]
pub fn applied(record: &Record, m: Marking) -> Result<Marking, Refusal> {
    let Marking { done, due, included } = m;
    let lacking = record.need_in & !included | record.need_ex & !done | record.need_out_or_ex & included & !done;
    if record.never != 0 || lacking != 0 {
        return Err(Refusal::NotApplied);
    }
    Ok(Marking {
        done: done | record.done,
        due: (due & !record.due_clear) | record.due_set,
        included: (included & !record.in_clear) | record.in_set,
    })
}
