//! Plain data in the form that crosses the border: the types of the crate `ulzhartep`, which has them field by field as in
//! `include/ulzhartep.h`. Any value of these types may be handed over; nothing here is checked.

mod bytes;

pub use bytes::Bytes;
pub use ulzhartep::{
    Allowed, Asked, Ending, Ends, Entry, Graph, Kept, Lapped, Marking, Moved, Ran, Record, Track, Tracked, Walked,
    Written, ACCEPTED, NONE, REACHABLE, STARVED, UNDECIDED,
};
