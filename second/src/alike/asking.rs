//! Which entries are asked for and taken after a journal, and which people are asked for.

use super::call::{Call, Journal};
use crate::data::{Entry, Graph, Marking, Ran};
use crate::peer;
use std::collections::BTreeMap;

/// The marking in a file, if it is one.
pub fn marking(bytes: &[u8]) -> Option<Marking> {
    match bytes.as_chunks() {
        ([done, due, included], []) => Some(Marking::new(word(done), word(due), word(included))),
        _ => None,
    }
}

fn word(bytes: &[u8; 8]) -> u64 {
    u64::from_le_bytes(*bytes)
}

/// A person, a step and a role, of any size.
pub type Numbers = [u64; 3];

/// After the journal: an entry that is refused, each time with another number as far as there are such, and one that is allowed.
/// Where the journal does not run through any entry does, and where the sheet is refused one in a while.
pub fn choices(sheet: &[u8], journal: &[u8], from: Option<Marking>, turn: usize) -> Vec<Numbers> {
    let (mut graph, mut marking) = (Graph::bare(0, 0, 0), Marking::default());
    if peer::sheet::read(sheet, &mut graph, &mut marking) != 0 {
        return vec![[0; 3]; turn.is_multiple_of(4).into()];
    }
    match peer::run(&graph, from.unwrap_or(marking), journal) {
        Ran { number: 0, marking, .. } => at(&graph, marking, turn),
        _ => vec![[0; 3]],
    }
}

fn at(g: &Graph, m: Marking, turn: usize) -> Vec<Numbers> {
    let mut answers: BTreeMap<u64, Vec<Numbers>> = BTreeMap::new();
    for entry in all(g) {
        answers.entry(peer::ask(g, m, entry).number).or_default().push(numbers(entry));
    }
    let pick = |number| answers.get(&number).map(|entries| entries[turn * 31 % entries.len()]);
    let allowed = pick(0);
    let unknown = beyond(g, allowed.unwrap_or_default(), turn / 5);
    let refused = (0..4).find_map(|k| match 11 + (turn + k) as u64 % 5 {
        11 => Some(unknown),
        number => pick(number),
    });
    [refused.unwrap_or(unknown)].into_iter().chain(allowed).collect()
}

fn all(g: &Graph) -> impl Iterator<Item = Entry> {
    let (steps, people, roles) = (g.steps as u8, g.people as u8, g.roles as u8);
    let taken =
        move |step| (0..people).flat_map(move |person| (0..roles).map(move |role| Entry { person, step, role }));
    (0..steps).flat_map(taken)
}

fn numbers(Entry { person, step, role }: Entry) -> Numbers {
    [person, step, role].map(u64::from)
}

/// One person after the other, and each time one who is not there; where the sheet is refused anyone, once in a while.
pub fn people(sheet: &[u8], turn: usize) -> Vec<u64> {
    let mut graph = Graph::bare(0, 0, 0);
    if peer::sheet::read(sheet, &mut graph, &mut Marking::default()) != 0 {
        return vec![0; turn.is_multiple_of(4).into()];
    }
    let known = turn as u64 % graph.people;
    let beyond = [graph.people, 255, 256, 256 + known, (1 << 32) + known, u64::MAX];
    vec![known, beyond[turn % beyond.len()]]
}

/// One of the three is unknown: by one, by a byte, or by so much that what is left in a byte is known.
fn beyond(g: &Graph, mut entry: Numbers, turn: usize) -> Numbers {
    let place = turn % 3;
    let (count, low) = ([g.people, g.steps, g.roles][place], entry[place]);
    entry[place] = [count, 255, 256 + low, (1 << 32) + low, u64::MAX][turn / 3 % 5];
    entry
}

/// The call for an entry after a journal of the program's own, which an answered one adds it to.
pub fn taken(call: Call, name: &str, before: Option<&[u8]>, entry: Numbers) -> Call {
    let added = entry.map(|number| number.to_le_bytes()[0]);
    named(call.journal(Journal { name: name.into(), before: before.map(<[u8]>::to_vec), added }), entry)
}

pub fn named(call: Call, entry: Numbers) -> Call {
    entry.iter().fold(call, |call, number| call.word(number.to_string()))
}
