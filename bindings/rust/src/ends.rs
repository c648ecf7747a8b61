use crate::refusal::refused;
use crate::{border, Ends, Graph, Marking, Refusal, MARKING_BYTES, NONE, REACHABLE};

/// Can a job still end? `looked` is how many markings were looked at to find out.
#[derive(Clone, Copy, PartialEq, Eq, Debug)]
pub enum CanEnd {
    /// The store was too small to tell, and a larger one may tell.
    Undecided { looked: u64 },
    /// Whatever is done from here on, the job is never finished.
    None { looked: u64 },
    /// A journal of this many entries finishes it, and none of fewer does.
    Reachable { fewest: u64, looked: u64 },
}

impl Graph {
    /// Can the job still end from this marking on? The markings that are found on the way are written into the store,
    /// in the order of finding and this one first, with [`MARKING_BYTES`] for each: [`markings`] lists them. A store has
    /// place for 1 to [`STORE_MOST`](crate::STORE_MOST); behind the markings found it stays as it was.
    ///
    /// Undecided and none are answers too, and the store is written then. Undecided leaves it full, and none leaves as
    /// many markings as were looked at. Reachable leaves at least so many, and the last that was looked at is finished.
    pub fn can_end(&self, marking: Marking, store: &mut [u8]) -> Result<CanEnd, Refusal> {
        let Ends { number, verdict, fewest, looked } = border::can_end(self, marking, store);
        refused(number, 0)?;
        Ok(match verdict {
            REACHABLE => CanEnd::Reachable { fewest, looked },
            NONE => CanEnd::None { looked },
            _ => CanEnd::Undecided { looked },
        })
    }
}

/// What a store has place for, in order; the first so many are what a search has found.
pub fn markings(store: &[u8]) -> impl Iterator<Item = Marking> + '_ {
    store.chunks_exact(MARKING_BYTES).map(|place| {
        let set = |at: usize| u64::from_le_bytes(place[at..at + 8].try_into().expect("8 bytes"));
        Marking::new(set(0), set(8), set(16))
    })
}
