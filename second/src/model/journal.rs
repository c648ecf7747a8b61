use crate::data::Entry;

/// Three bytes an entry: person, step, role. There are none to read where the length is bad, which is number 7.
pub fn entries(journal: &[u8]) -> Option<Vec<Entry>> {
    let lawful = journal.len().is_multiple_of(3) && journal.len() <= 65_535;
    let entry = |bytes: &[u8]| Entry { person: bytes[0], step: bytes[1], role: bytes[2] };
    lawful.then(|| journal.chunks(3).map(entry).collect())
}
