//! Ulzhartep, the procedure box: safe calls for its library, on x86-64 Linux with glibc.
//!
//! A job is a [`Graph`] of steps. People take steps in roles; some steps wait for others, and taking one makes others due,
//! includes them or excludes them. Every call takes any values and answers with what the rules say or with a [`Refusal`].
//!
//! ```no_run
//! # fn main() -> Result<(), Box<dyn std::error::Error>> {
//! use ulzhartep::{Entry, Graph};
//!
//! let (graph, start) = Graph::read(&std::fs::read("job.sheet")?)?;
//! let reboot = Entry { person: 0, step: 0, role: 0 };
//! match graph.ask(start, reboot) {
//!     Ok(()) => println!("finished then: {}", graph.finished(graph.take(start, reboot)?)?),
//!     Err(refusal) => println!("{refusal}"),
//! }
//! # Ok(())
//! # }
//! ```
//!
//! [`border`] has the same calls with the answers word for word as `ulzhartep.h` has them.

mod answers;
pub mod border;
mod ends;
mod graph;
mod jobs;
mod journals;
mod record;
mod refusal;
mod state;

pub use answers::{Allowed, Asked, Ending, Ends, Kept, Lapped, Moved, Ran, Tracked, Walked, Written};
pub use answers::{ACCEPTED, NONE, REACHABLE, STARVED, UNDECIDED};
pub use ends::{markings, CanEnd};
pub use graph::Graph;
pub use jobs::cabinet;
pub use journals::{apply, join, walk, LapRefused, Passed, Stopped, Verdict};
pub use record::Record;
pub use refusal::Refusal;
pub use state::{steps, Entry, Marking, Track};

/// The longest journal, in bytes: 21,845 entries.
pub const JOURNAL_BYTES: usize = 65_535;

/// Every record, in bytes.
pub const RECORD_BYTES: usize = 65;

/// Every marking in a store, in bytes.
pub const MARKING_BYTES: usize = 24;

/// The most markings that a store has place for: 49,152 bytes.
pub const STORE_MOST: usize = 2_048;

/// The longest sheet, in bytes. It has six bodies; the longest of five has 70 bytes less.
pub const SHEET_BYTES: usize = 37_147;

/// The shortest sheet that is read, in bytes: of five bodies, with one step, one person, one role and no arrow.
pub const SHEET_LEAST: usize = 57;

/// The shortest sheet that is written, in bytes, and the shortest of six bodies that is read: the same with one action.
pub const SHEET_WRITTEN_LEAST: usize = 64;
