use super::{apply::applied, bytes::parse};
use crate::data::{Graph, Marking, Ran};
use crate::peer::{
    run::{ready, run_entries},
    Refusal,
};

/// Applies the record in the bytes, then runs the rest of the journal.
pub fn restore(g: &Graph, record: &[u8], journal: &[u8], m: Marking) -> Ran {
    match given(g, record, journal, m) {
        Ok((m, entries)) => run_entries(g, m, entries),
        Err(refusal) => Ran { number: refusal.number(), marking: refusal.leaves(m), ..Ran::default() },
    }
}

/// The marking that the record gives, and the entries of the rest.
#[inline]
fn given<'a>(g: &Graph, record: &[u8], journal: &'a [u8], m: Marking) -> Result<(Marking, &'a [[u8; 3]]), Refusal> {
    let entries = ready(g, m, journal)?;
    Ok((applied(&parse(g.steps, record)?, m)?, entries))
}
