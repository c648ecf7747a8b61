//! The answers. A number of 0 says that the call is answered. `waiting` is the set of all steps that are waited for: with 15 it has
//! at least one, with every other number it is 0.

use crate::{Entry, Marking, Track};

/// Of the question whether an entry is allowed.
#[repr(C)]
#[derive(Clone, Copy, Default, PartialEq, Eq, Debug)]
pub struct Asked {
    pub number: u64,
    pub waiting: u64,
}

/// Of the question which steps are allowed, to a person or to someone: their set. With a number above 0 it is 0.
#[repr(C)]
#[derive(Clone, Copy, Default, PartialEq, Eq, Debug)]
pub struct Allowed {
    pub number: u64,
    pub steps: u64,
}

/// Of the question whether the job is finished: 1 where it is.
#[repr(C)]
#[derive(Clone, Copy, Default, PartialEq, Eq, Debug)]
pub struct Ending {
    pub number: u64,
    pub finished: u64,
}

/// Of a single move and of a record that is applied.
#[repr(C)]
#[derive(Clone, Copy, Default, PartialEq, Eq, Debug)]
pub struct Moved {
    pub number: u64,
    pub waiting: u64,
    pub marking: Marking,
}

/// Of a move on a marking that is changed where it lies.
#[repr(C)]
#[derive(Clone, Copy, Default, PartialEq, Eq, Debug)]
pub struct Kept {
    pub number: u64,
    pub waiting: u64,
}

/// Of a journal that is run: how many entries passed, and the marking after them.
#[repr(C)]
#[derive(Clone, Copy, Default, PartialEq, Eq, Debug)]
pub struct Ran {
    pub number: u64,
    pub waiting: u64,
    pub entries: u64,
    pub marking: Marking,
}

/// Of a walk: an entry, or 1 in `ended`.
#[repr(C)]
#[derive(Clone, Copy, Default, PartialEq, Eq, Debug)]
pub struct Walked {
    pub number: u64,
    pub ended: u64,
    pub entry: Entry,
}

/// Of a lap: the verdict, with the step that starves; or where an entry was refused.
#[repr(C)]
#[derive(Clone, Copy, Default, PartialEq, Eq, Debug)]
pub struct Lapped {
    pub number: u64,
    pub waiting: u64,
    pub verdict: u64,
    pub step: u64,
    pub index: u64,
    pub pass: u64,
}

/// The verdicts of a lap; with a refusal there is none.
pub const ACCEPTED: u64 = 1;
pub const STARVED: u64 = 2;

/// Of the question whether the job can still end: the verdict, with the fewest entries that end it; and how many
/// markings were looked at. With a number above 0 all of them are 0.
#[repr(C)]
#[derive(Clone, Copy, Default, PartialEq, Eq, Debug)]
pub struct Ends {
    pub number: u64,
    pub verdict: u64,
    pub fewest: u64,
    pub looked: u64,
}

/// The verdicts of a search for an end; with a refusal there is none.
pub const UNDECIDED: u64 = 1;
pub const NONE: u64 = 2;
pub const REACHABLE: u64 = 3;

/// Of the tracker.
#[repr(C)]
#[derive(Clone, Copy, Default, PartialEq, Eq, Debug)]
pub struct Tracked {
    pub number: u64,
    pub waiting: u64,
    pub track: Track,
}

/// Of a writer: how many bytes it has written.
#[repr(C)]
#[derive(Clone, Copy, Default, PartialEq, Eq, Debug)]
pub struct Written {
    pub number: u64,
    pub length: u64,
}
