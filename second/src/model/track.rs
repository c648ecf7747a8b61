use super::{check::refused, take::take_entry, Graph, Marking, Set};
use crate::data::{self, Asked, Entry, Track, Tracked};

/// Rank 1, and the flag tells whether the job is finished.
pub fn track_start(g: &Graph, m: data::Marking) -> Tracked {
    match refused(g, &[(8, Marking::read(m).names_beyond(g.steps))]) {
        0 => rest(m, 1),
        number => Tracked { number, ..Tracked::default() },
    }
}

/// Nothing is done: marking and rank stay, and the flag tells whether the job is finished.
pub fn track_idle(g: &Graph, track: Track) -> Tracked {
    match refused(g, &numbers(g, track)) {
        0 => rest(track.marking, track.rank),
        number => Tracked { number, ..Tracked::default() },
    }
}

pub fn track_step(g: &Graph, track: Track, entry: Entry) -> Tracked {
    match refused(g, &numbers(g, track)) {
        0 => track_entry(g, track, entry),
        number => Tracked { number, ..Tracked::default() },
    }
}

/// The same where graph, marking and rank are as they should be: only the entry is looked at.
pub fn track_entry(g: &Graph, track: Track, entry: Entry) -> Tracked {
    let before = Marking::read(track.marking);
    match take_entry(g, &before, entry) {
        Ok(after) => {
            let (rank, flag) = go_along(&before.pending(), &after.pending(), track.rank, entry.step.into());
            at(Track { marking: after.write(), rank, flag: flag.into() })
        }
        Err(Asked { number, waiting }) => Tracked { number, waiting, track },
    }
}

fn numbers(g: &Graph, track: Track) -> [(u64, bool); 2] {
    [(8, Marking::read(track.marking).names_beyond(g.steps)), (9, !(1..=g.steps).contains(&track.rank))]
}

/// The next rank and flag. Of what was pending before the step, one has its turn: the lowest above rank i, or the lowest of all
/// where none is above. Has it been done, or is it pending no more, then the rank goes to it and the flag is up. Otherwise the
/// rank stays, and the flag is up where nothing is pending any more.
fn go_along(before: &Set, after: &Set, i: u64, e: u64) -> (u64, bool) {
    let turn = before.iter().find(|s| rank_of(**s) > i).or(before.first());
    match turn {
        Some(x) if *x == e || !after.contains(x) => (rank_of(*x), true),
        _ => (i, after.is_empty()),
    }
}

/// Ranks count from 1.
fn rank_of(s: u64) -> u64 {
    s + 1
}

fn rest(marking: data::Marking, rank: u64) -> Tracked {
    at(Track { marking, rank, flag: Marking::read(marking).pending().is_empty().into() })
}

fn at(track: Track) -> Tracked {
    Tracked { track, ..Tracked::default() }
}
