//! The same calls as they would be written for speed in safe Rust: sets are words, a refusal is an early return. They take and
//! answer what crosses the border.

mod allowed;
mod ask;
mod cabinet;
mod check;
mod ends;
mod finished;
mod found;
mod journal;
mod lap;
pub mod record;
mod refusal;
mod run;
pub mod sheet;
mod take;
mod track;
mod walk;

pub use allowed::{allowed_to, allowed_to_someone};
pub use ask::ask;
pub use cabinet::{cabinet, cabinet_by_graph};
pub use check::check;
pub use ends::{can_end, can_end_by_slots};
pub use finished::finished;
pub use lap::lap;
pub use run::run;
pub use take::{keep, take};
pub use track::{track_idle, track_start, track_step};
pub use walk::walk;

use refusal::{number, Refusal};
