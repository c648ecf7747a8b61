//! Journals to fold, whole and in parts, and records to restore from.

use super::{harm, journals, records, Dice};
use crate::data::{Bytes, Graph, Marking};
use crate::peer;

#[derive(Clone, Debug)]
pub struct Fold {
    pub graph: Graph,
    pub marking: Marking,
    pub journal: Bytes,
    /// Where the journal is cut into 1 to 64 parts, in entries, in ascending order.
    pub cuts: Vec<usize>,
    /// The record that stands for so many entries of its beginning.
    pub record: Bytes,
    pub recorded: usize,
}

pub fn make(dice: &mut Dice) -> Fold {
    let (mut graph, mut marking, mut journal) = journals::whole(dice);
    let entries = journal.len() / 3;
    let (cuts, recorded) = (cuts(dice, entries), dice.below(entries + 1));
    let record = record(dice, &graph, &journal[..3 * recorded]);
    if dice.one_in(10) {
        journals::spoil_length(dice, &mut journal);
    }
    if dice.one_in(3) {
        harm(dice, &mut graph, &mut marking);
    }
    Fold { graph, marking, journal: Bytes(journal), cuts, record, recorded }
}

pub fn full(dice: &mut Dice) -> Fold {
    let journals::Journal { graph, marking, journal, .. } = journals::full(dice);
    let (cuts, recorded) = (cuts(dice, journals::FULL), dice.below(journals::FULL + 1));
    let record = record(dice, &graph, &journal[..3 * recorded]);
    Fold { graph, marking, journal, cuts, record, recorded }
}

/// Some parts may be empty, the first and the last among them.
fn cuts(dice: &mut Dice, entries: usize) -> Vec<usize> {
    let parts = dice.between(1, 65);
    let mut cuts: Vec<_> = (1..parts).map(|_| dice.below(entries + 1)).collect();
    cuts.sort_unstable();
    cuts
}

/// Most often the fold of the journal's beginning; or any record; or damaged.
fn record(dice: &mut Dice, graph: &Graph, beginning: &[u8]) -> Bytes {
    let steps = graph.steps.clamp(1, 64);
    let (mut bytes, mut record) = ([0; 65], records::record(dice, steps));
    if !dice.one_in(8) && peer::record::fold(graph, beginning, &mut bytes) == 0 {
        peer::record::read(steps, &bytes, &mut record);
    }
    Bytes(records::bytes(dice, steps, record))
}
