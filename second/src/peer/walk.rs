use super::journal::{entries, entry};
use crate::data::Walked;

/// The entry at a place, or the end.
pub fn walk(journal: &[u8], place: u64) -> Walked {
    let entries = match entries(journal) {
        Ok(entries) => entries,
        Err(refusal) => return Walked { number: refusal.number(), ..Walked::default() },
    };
    match usize::try_from(place).ok().and_then(|place| entries.get(place)) {
        Some(bytes) => Walked { entry: entry(bytes), ..Walked::default() },
        None => Walked { ended: 1, ..Walked::default() },
    }
}
