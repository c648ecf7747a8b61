//! The independent program, written from the rules alone in plain sets and lists of pairs. It is slow on purpose: each rule stands
//! there as the document has it, and nothing is clever. Where it and another body differ, it is right.
//!
//! A call takes the model's own graph, so that one is read once for many calls, and otherwise what the border takes. It answers
//! what the border answers; where that is written to lent memory, it gives the content, or the number of the refusal.

mod allowed;
mod ask;
pub mod cabinet;
mod check;
mod ends;
mod finished;
mod graph;
mod journal;
mod lap;
mod marking;
pub mod record;
mod run;
pub mod sheet;
mod take;
mod track;
mod walk;

pub use allowed::{allowed_to, allowed_to_someone};
pub use ask::{ask, ask_entry, waiting};
pub use check::check;
pub use ends::can_end;
pub use finished::finished;
pub use graph::{members, targets, Graph, Set};
pub use journal::entries;
pub use lap::lap;
pub use marking::Marking;
pub use run::run;
pub use take::{keep, take, take_entry};
pub use track::{track_entry, track_idle, track_start, track_step};
pub use walk::Walk;

/// The lowest of these numbers that holds, 0 if none does.
fn lowest(numbers: &[(u64, bool)]) -> u64 {
    numbers.iter().filter(|(_, holds)| *holds).map(|(number, _)| *number).min().unwrap_or(0)
}
