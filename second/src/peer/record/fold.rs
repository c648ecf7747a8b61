use super::{bytes::put, tidy, IDENTITY, NEVER};
use crate::data::{Entry, Graph, Record};
use crate::peer::{
    ask::{known, roles_of},
    check::well_formed,
    journal::{entries, entry},
    number, Refusal,
};

/// Writes the journal's record.
pub fn fold(g: &Graph, journal: &[u8], out: &mut [u8; 65]) -> u64 {
    number(folded(g, journal).map(|record| put(&record, out)))
}

/// Kept apart from the writing: within it the loop would have too few registers.
#[inline(never)]
fn folded(g: &Graph, journal: &[u8]) -> Result<Record, Refusal> {
    well_formed(g)?;
    let mut record = IDENTITY;
    for bytes in entries(journal)? {
        match longer(&record, g, entry(bytes)) {
            Some(longer) => record = longer,
            None => return Ok(NEVER),
        }
    }
    Ok(tidy(record))
}

/// With one entry more, unless none can follow here. Tidied once for all at the end.
#[inline]
fn longer(record: &Record, g: &Graph, e: Entry) -> Option<Record> {
    if !known(g, e) {
        return None;
    }
    let step = usize::from(e.step);
    if g.holds[usize::from(e.person)] & roles_of(g, step) & (1 << e.role) == 0 {
        return None;
    }
    let this = 1u64 << e.step;
    if record.in_clear & this != 0 {
        return None;
    }
    let open = g.conditions[step] & !(record.in_clear | record.done | record.need_ex);
    let (responses, includes, excludes) = (g.responses[step], g.includes[step], g.excludes[step]);
    Some(Record {
        never: 0,
        need_in: record.need_in | (this & !record.in_set),
        need_ex: record.need_ex | (open & record.in_set),
        need_out_or_ex: record.need_out_or_ex | (open & !record.in_set),
        done: record.done | this,
        due_set: (record.due_set & !this) | responses,
        due_clear: (record.due_clear | this) & !responses,
        in_set: (record.in_set | includes) & !excludes,
        in_clear: (record.in_clear | excludes) & !includes,
    })
}
