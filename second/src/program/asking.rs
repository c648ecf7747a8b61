//! An entry after a journal: asked for, or taken.

use super::{entries::AnyEntry, findings, journals, lines::Lines, sheets::read, Answer, Given, Reply};
use crate::data::Asked;
use crate::model::{self, Graph, Marking};

/// A job after its journal, and the index that the next entry has.
struct Place {
    graph: Graph,
    marking: Marking,
    index: u64,
}

pub fn ask(given: &Given) -> Reply {
    let at = place(given)?;
    match model::ask_entry(&at.graph, &at.marking, given.entry.stored()) {
        Asked { number: 0, .. } => Ok(Answer::new(Lines::default().say("allowed", "yes").entry(at.index, given.entry))),
        asked => Err(refused(&at, given.entry, asked)),
    }
}

/// The bytes of the answer are the entry's.
pub fn take(given: &Given) -> Reply {
    let (at, entry) = (place(given)?, given.entry.stored());
    let after = model::take_entry(&at.graph, &at.marking, entry);
    let after = after.map_err(|asked| refused(&at, given.entry, asked))?;
    let lines = Lines::default().say("taken", "yes").entry(at.index, given.entry).marking(&after).ending(&after);
    Ok(Answer { bytes: vec![entry.person, entry.step, entry.role], ..Answer::new(lines) })
}

/// Where the journal leads. In one that is full there is no place, also not to ask for.
fn place(given: &Given) -> Result<Place, Lines> {
    let [sheet, journal] = given.files();
    let (graph, first) = read(sheet)?;
    if let Some(finding) = findings::journal(journal).or_else(|| findings::full(journal)) {
        return Err(Lines::refused_for(7, journal, Some(finding)));
    }
    let start = journals::start(given, &graph, first)?;
    let ran = model::run(&graph, start, journal);
    let (_, marking) = journals::told(&graph, ran, journal)?;
    Ok(Place { graph, marking, index: ran.entries })
}

/// No file has the entry, so that none is named.
fn refused(at: &Place, entry: AnyEntry, Asked { number, waiting }: Asked) -> Lines {
    let lines = Lines::refused(number).finding(findings::entry(&at.graph, &at.marking, entry));
    lines.refused_entry(at.index, entry, number, waiting).marking(&at.marking)
}
