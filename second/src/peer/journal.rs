use super::Refusal;
use crate::data::Entry;

/// The entries, as they lie in the journal.
pub fn entries(journal: &[u8]) -> Result<&[[u8; 3]], Refusal> {
    match journal.as_chunks() {
        (entries, []) if journal.len() <= 65_535 => Ok(entries),
        _ => Err(Refusal::Length),
    }
}

#[inline]
pub fn entry(&[person, step, role]: &[u8; 3]) -> Entry {
    Entry { person, step, role }
}
