use super::journal::entries;
use crate::data::{Entry, Walked};

/// Holds a journal and a place in it, and hands out an entry at a time. At the end it stays, and over a journal of bad length it
/// says 7 each time.
pub struct Walk {
    entries: Option<Vec<Entry>>,
    place: u64,
}

impl Walk {
    pub fn new(journal: &[u8]) -> Self {
        Walk { entries: entries(journal), place: 0 }
    }

    pub fn place(&self) -> u64 {
        self.place
    }

    /// What a walk at this place hands out. From the number of entries on every place is the end.
    pub fn at(&self, place: u64) -> Walked {
        let Some(entries) = &self.entries else {
            return Walked { number: 7, ..Walked::default() };
        };
        match usize::try_from(place).ok().and_then(|place| entries.get(place)) {
            Some(entry) => Walked { entry: *entry, ..Walked::default() },
            None => Walked { ended: 1, ..Walked::default() },
        }
    }

    pub fn hand_out(&mut self) -> Walked {
        let walked = self.at(self.place);
        self.place += u64::from(walked.number == 0 && walked.ended == 0);
        walked
    }
}
