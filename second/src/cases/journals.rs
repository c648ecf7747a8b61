//! Journals of every length, on graphs of every size: allowed throughout, refused early or late, garbage, and of bad length.

use super::{
    crowds,
    entries::{fitting, known},
    harm, lively_job,
    walks::{push, refused, walk},
    Dice,
};
use crate::data::{Bytes, Entry, Graph, Marking};

/// As many entries as a journal can have.
pub const FULL: usize = 21_845;

#[derive(Clone, Debug)]
pub struct Journal {
    pub graph: Graph,
    pub marking: Marking,
    pub journal: Bytes,
    /// Where a walk is looked at.
    pub place: u64,
}

pub fn make(dice: &mut Dice) -> Journal {
    let (mut graph, mut marking, mut journal) = whole(dice);
    if dice.one_in(8) {
        spoil_length(dice, &mut journal);
    }
    if dice.one_in(2) {
        harm(dice, &mut graph, &mut marking);
    }
    let place = place(dice, journal.len() as u64 / 3);
    Journal { graph, marking, journal: Bytes(journal), place }
}

/// A job and a journal of it, undamaged.
pub fn whole(dice: &mut Dice) -> (Graph, Marking, Vec<u8>) {
    if dice.one_in(5) {
        return crowds::journal(dice);
    }
    let (graph, marking) = lively_job(dice);
    let (entries, mut journal) = (length(dice), Vec::new());
    write(dice, &graph, marking, entries, &mut journal);
    (graph, marking, journal)
}

/// Of full length: half of them run through, the others have one entry that is most often refused, at any place.
pub fn full(dice: &mut Dice) -> Journal {
    loop {
        let (graph, marking) = lively_job(dice);
        let (mut at, mut journal) = (marking, Vec::new());
        walk(dice, &graph, &mut at, FULL, &mut journal);
        if journal.len() < 3 * FULL {
            continue;
        }
        if dice.one_in(2) {
            let (place, entry) = (dice.between(0, FULL), refused(dice, &graph, &at));
            journal[3 * place..][..3].copy_from_slice(&[entry.person, entry.step, entry.role]);
        }
        return Journal { graph, marking, journal: Bytes(journal), place: dice.between(0, FULL + 2) as u64 };
    }
}

/// Short ones mostly, now and then up to the longest.
pub fn length(dice: &mut Dice) -> usize {
    if dice.one_in(500) {
        return dice.between(0, FULL + 1);
    }
    let most = dice.pick(&[1, 4, 12, 12, 12, 40, 40, 40, 120]);
    dice.below(most + 1)
}

/// At most so many entries: a walk that is allowed, or one that is cut somewhere and goes on with an entry that is refused there
/// and others that may be, or only the latter.
pub fn write(dice: &mut Dice, g: &Graph, mut at: Marking, entries: usize, journal: &mut Vec<u8>) {
    let how = dice.below(8);
    let allowed = match how {
        0 => 0,
        1..=4 => dice.below(entries + 1),
        _ => entries,
    };
    walk(dice, g, &mut at, allowed, journal);
    if (1..=4).contains(&how) && allowed < entries {
        push(journal, refused(dice, g, &at));
    }
    if how < 5 {
        let kind = dice.below(3);
        (journal.len() / 3..entries).for_each(|_| push(journal, other(dice, g, kind)));
    }
}

/// An entry that knows nothing of the marking: fitting, known, or any bytes at all.
fn other(dice: &mut Dice, g: &Graph, kind: usize) -> Entry {
    match kind {
        0 => fitting(dice, g),
        1 => known(dice, g),
        _ => {
            let [person, step, role, ..] = dice.word().to_le_bytes();
            Entry { person, step, role }
        }
    }
}

/// One or two bytes too few or too many, or too many entries.
pub fn spoil_length(dice: &mut Dice, journal: &mut Vec<u8>) {
    let length = match dice.below(8) {
        0 => dice.pick(&[65_536, 65_537, 65_538, 65_541, 131_070]),
        1 | 2 => journal.len().saturating_sub(1),
        3 | 4 => journal.len().saturating_sub(2),
        5 | 6 => journal.len() + 1,
        _ => journal.len() + 2,
    };
    journal.resize(length, 0);
}

/// A place at an entry, at the end or beyond, some of them such that three times the place comes round at 2 ^ 64.
fn place(dice: &mut Dice, entries: u64) -> u64 {
    const ROUND: u64 = u64::MAX / 3 + 1;
    match dice.below(8) {
        0 => dice.pick(&[entries, entries + 1]),
        1 => dice.pick(&[u64::MAX, 1 << 32, ROUND, ROUND + 1, 2 * ROUND, 2 * ROUND - 1]),
        _ => dice.between(0, entries as usize + 1) as u64,
    }
}
