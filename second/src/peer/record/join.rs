use super::{
    bytes::{parse, put},
    stated, tidy, NEVER,
};
use crate::data::Record;
use crate::peer::{number, Refusal};

/// Writes the record of the first and then the second.
pub fn join(n: u64, first: &[u8], second: &[u8], out: &mut [u8; 65]) -> u64 {
    number(joined(n, first, second).map(|record| put(&record, out)))
}

#[inline]
fn joined(n: u64, first: &[u8], second: &[u8]) -> Result<Record, Refusal> {
    stated(n)?;
    Ok(both(&parse(n, first)?, &parse(n, second)?))
}

#[inline]
fn both(first: &Record, then: &Record) -> Record {
    if first.never | then.never != 0 || then.need_in & first.in_clear != 0 {
        return NEVER;
    }
    // What has to be out or done after the first is so where that one excludes it or leaves it done.
    let open = then.need_out_or_ex & !(first.in_clear | first.done | first.need_ex);
    tidy(Record {
        never: 0,
        need_in: first.need_in | (then.need_in & !first.in_set),
        need_ex: first.need_ex | (then.need_ex & !first.done) | (open & first.in_set),
        need_out_or_ex: first.need_out_or_ex | (open & !first.in_set),
        done: first.done | then.done,
        due_set: (first.due_set & !then.due_clear) | then.due_set,
        due_clear: (first.due_clear & !then.due_set) | then.due_clear,
        in_set: (first.in_set & !then.in_clear) | then.in_set,
        in_clear: (first.in_clear & !then.in_set) | then.in_clear,
    })
}
