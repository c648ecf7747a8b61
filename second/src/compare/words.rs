//! The answers in words, and how answers are told apart.

use second::data::{Allowed, Ran, Tracked};

/// An answer that a call can give: below 256 it is its number; answers of one number that are to be told apart differ by 256
/// and its multiples.
pub type Kind = (u64, &'static str);

/// By its number, and by how many steps are waited for: with 15 there are such, and with any other number there are none, or it is
/// no answer of any call.
pub fn by_crowd(number: u64, waiting: u64) -> u64 {
    let crowd = match waiting.count_ones() {
        0 => 0,
        1 => ONE,
        2..=62 => SOME,
        _ => MOST,
    };
    number + crowd
}

const ONE: u64 = 1024;
const SOME: u64 = 2 * ONE;
const MOST: u64 = 3 * ONE;

/// The same, and whether it came at the first entry or a later one.
pub fn by_lateness(ran: Ran) -> u64 {
    by_crowd(ran.number, ran.waiting) + 256 * u64::from(ran.entries > 0)
}

/// The same, and when answered by the flag.
pub fn by_flag(tracked: Tracked) -> u64 {
    let flag = if tracked.number == 0 { tracked.track.flag } else { 0 };
    by_crowd(tracked.number, tracked.waiting) + 256 * flag
}

/// By its number, and when answered by how many of the graph's steps are in the set.
pub fn by_share(allowed: Allowed, steps: u64) -> u64 {
    let share = match allowed.steps {
        0 => 0,
        set if u64::from(set.count_ones()) < steps => 256,
        _ => 512,
    };
    allowed.number + share
}

pub const SHARES: &[Kind] = &[(0, "no step"), (256, "some steps"), (512, "every step")];

pub const FLAGS: &[Kind] = &[(0, "flag down"), (256, "flag up")];

pub const COUNTS: Kind = (2, "counts out of range");
pub const BEYOND: Kind = (4, "something beyond the counts");
pub const BOTH: Kind = (6, "a pair includes and excludes");
pub const LENGTH: Kind = (7, "bad length of a journal");
pub const OUTSIDE: Kind = (8, "marking beyond the graph");
pub const NO_RANK: Kind = (9, "rank out of range");
pub const ILL_FORMED: Kind = (10, "record not well-formed");
pub const NOT_APPLIED: Kind = (16, "record does not apply");
pub const ROOM: Kind = (18, "room too short");

/// Of a graph.
pub const GRAPH: &[Kind] = &[COUNTS, BEYOND, BOTH];

pub const UNKNOWN: Kind = (11, "unknown person, step or role");
const NOT_HELD: Kind = (12, "person does not hold the role");
const NOT_ON_STEP: Kind = (13, "action does not have the role");
const EXCLUDED: Kind = (14, "step not included");
pub const WAITS_FOR_ONE: Kind = (ONE + 15, "step waits for one");
pub const WAITS_FOR_SOME: Kind = (SOME + 15, "step waits for 2 to 62");
pub const WAITS_FOR_MOST: Kind = (MOST + 15, "step waits for 63 or 64");

/// Of a single entry.
pub const ENTRY: &[Kind] = &[UNKNOWN, NOT_HELD, NOT_ON_STEP, EXCLUDED, WAITS_FOR_ONE, WAITS_FOR_SOME, WAITS_FOR_MOST];

/// Of the entries of a journal, by lateness, but for those that wait.
pub const ENTRIES: &[Kind] =
    &[UNKNOWN, later(UNKNOWN), NOT_HELD, later(NOT_HELD), NOT_ON_STEP, later(NOT_ON_STEP), EXCLUDED, later(EXCLUDED)];

pub const WAITING_ENTRIES: &[Kind] = &[
    WAITS_FOR_ONE,
    later(WAITS_FOR_ONE),
    WAITS_FOR_SOME,
    later(WAITS_FOR_SOME),
    WAITS_FOR_MOST,
    later(WAITS_FOR_MOST),
];

/// The same number, at a later entry.
const fn later((number, _): Kind) -> Kind {
    (number + 256, "  at a later entry")
}
