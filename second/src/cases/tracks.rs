//! States of the tracker with an entry, and walks: idle moves and entries one after the other.

use super::{entries, harm, job, lively_job, walks, Dice};
use crate::data::{self, Entry, Graph, Marking};
use crate::peer;

#[derive(Clone, Debug)]
pub struct Track {
    pub graph: Graph,
    pub track: data::Track,
    pub entry: Entry,
    /// From the track's marking on: an entry, or an idle move.
    pub moves: Vec<Option<Entry>>,
}

pub fn make(dice: &mut Dice) -> Track {
    let (mut graph, mut marking) = if dice.one_in(4) { job(dice) } else { lively_job(dice) };
    let entry = entries::aimed(dice, &mut graph, &mut marking);
    let moves = moves(dice, &graph, marking);
    let (rank, flag) = (rank(dice, graph.steps), dice.pick(&[0, 1, 1, 2, 255, 256, 1 << 32, u64::MAX]));
    if dice.one_in(3) {
        harm(dice, &mut graph, &mut marking);
    }
    Track { graph, track: data::Track { marking, rank, flag }, entry, moves }
}

/// Of a step, most often.
fn rank(dice: &mut Dice, steps: u64) -> u64 {
    let rank = dice.between(1, steps.clamp(1, 64) as usize + 1) as u64;
    match dice.below(16) {
        0 => dice.pick(&[0, steps.wrapping_add(1), 64, 65, 255, 256, u64::MAX]),
        1 if dice.one_in(2) => dice.come_round(rank),
        _ => rank,
    }
}

/// Allowed entries, one in eight refused, and idle moves between.
fn moves(dice: &mut Dice, g: &Graph, mut at: Marking) -> Vec<Option<Entry>> {
    (0..dice.below(24))
        .map(|_| {
            if dice.one_in(5) {
                return None;
            }
            let mut journal = Vec::new();
            if !dice.one_in(8) {
                walks::walk(dice, g, &mut at, 1, &mut journal);
            }
            match journal[..] {
                [person, step, role] => Some(Entry { person, step, role }),
                _ => Some(walks::refused(dice, g, &at)).inspect(|entry| {
                    // It may be allowed where the graph has no room for the refusal.
                    peer::keep(g, &mut at, *entry);
                }),
            }
        })
        .collect()
}
