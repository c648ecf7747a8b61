//! Records as they cross the border: bytes in, bytes out.

mod apply;
mod bytes;
mod fold;
mod join;
mod restore;

pub use apply::apply;
pub use bytes::{read, write};
pub use fold::fold;
pub use join::join;
pub use restore::restore;

use super::Refusal;
use crate::data::Record;

const IDENTITY: Record = Record::new([0; 9]);
const NEVER: Record = Record { never: 1, ..IDENTITY };

/// Makes a record well-formed without altering what it does.
#[inline]
fn tidy(record: Record) -> Record {
    let need_ex = record.need_ex | (record.need_in & record.need_out_or_ex);
    Record {
        need_ex,
        need_out_or_ex: record.need_out_or_ex & !(record.need_in | need_ex),
        done: record.done & !need_ex,
        in_set: record.in_set & !record.need_in,
        ..record
    }
}

/// Refuses a stated number of steps that is not 1 to 64.
#[inline]
fn stated(n: u64) -> Result<(), Refusal> {
    if (1..=64).contains(&n) {
        Ok(())
    } else {
        Err(Refusal::Counts)
    }
}
