//! Jobs as files: a sheet with journals, a marking and a record that go with it.

use super::{
    crowds::{self, Crowd},
    entries::fitting,
    graphs::{self, MOST},
    journals, markings, records,
    sheets::{damaged, in_a_form, whole, written, written_in_five},
    walks::{push, refused, walk},
    Density, Dice,
};
use crate::data::{Graph, Marking};
use crate::sample;

#[derive(Clone, PartialEq, Eq, Debug)]
pub struct Job {
    pub sheet: Vec<u8>,
    /// Allowed from the sheet's marking on; after that one at least one entry, allowed where there is such; most often refused
    /// somewhere; and an odd one.
    pub journals: [Vec<u8>; 4],
    pub marking: Vec<u8>,
    pub record: Vec<u8>,
}

/// The first is the sample job with a record that applies everywhere, the second has all 12,288 arrows, the third a journal of
/// full length, and the fourth all arrows in a sheet of five bodies; the others are of any kind, one in six with a step that most
/// often waits for many, and a quarter of them has a damaged sheet.
pub fn make(dice: &mut Dice, index: u64) -> Job {
    match index {
        0 => {
            let job = of_graph(dice, &sample::graph(), sample::START, 0);
            let sheet = written(&sample::graph(), sample::START);
            Job { sheet, marking: sample::START.bytes(), record: vec![0; 65], ..job }
        }
        1 | 3 => {
            let (graph, marking) = dense(dice);
            let form = if index == 1 { written } else { written_in_five };
            Job { sheet: form(&graph, marking), ..of_graph(dice, &graph, marking, 0) }
        }
        2 => long(dice),
        _ => {
            let faults = dice.pick(&[0, 0, 0, 0, 0, 0, 1, 2]);
            if dice.one_in(6) {
                return crowded(dice, faults);
            }
            let (graph, marking) = any(dice);
            of_graph(dice, &graph, marking, faults)
        }
    }
}

fn any(dice: &mut Dice) -> (Graph, Marking) {
    match dice.below(24) {
        0 => (sample::graph(), dice.pick(&[sample::START, sample::REBOOTED, sample::CHECKED])),
        1 => dense(dice),
        2..5 => sparse(dice),
        5..12 => whole(dice),
        _ => livened(dice, graphs::lively),
    }
}

/// As many steps, people, roles, actions and arrows as there can be.
fn dense(dice: &mut Dice) -> (Graph, Marking) {
    livened(dice, |dice| graphs::sized(dice, MOST, [Density::Full; 6]))
}

fn sparse(dice: &mut Dice) -> (Graph, Marking) {
    let sizes = graphs::sizes(dice, MOST);
    livened(dice, |dice| graphs::sized(dice, sizes, [Density::Sparse; 6]))
}

fn livened(dice: &mut Dice, graph: impl FnOnce(&mut Dice) -> Graph) -> (Graph, Marking) {
    let graph = graph(dice);
    let mut marking = markings::inside(dice, graph.steps);
    markings::liven(dice, graph.steps, &mut marking);
    (graph, marking)
}

/// The first journal is as long as a journal can be.
fn long(dice: &mut Dice) -> Job {
    let journals::Journal { graph, marking, journal, .. } = journals::full(dice);
    let mut job = of_graph(dice, &graph, marking, 0);
    job.journals[0] = journal.0;
    job
}

/// No entry, the one that waits, others before it, and those alone.
fn crowded(dice: &mut Dice, faults: usize) -> Job {
    let Crowd { graph, marking, before, waits } = crowds::make(dice);
    let (job, mut alone) = (of_graph(dice, &graph, marking, faults), Vec::new());
    push(&mut alone, waits);
    Job { journals: [Vec::new(), alone.clone(), [before.clone(), alone].concat(), before], ..job }
}

fn of_graph(dice: &mut Dice, g: &Graph, start: Marking, faults: usize) -> Job {
    let (mut at, mut first, mut second) = (start, Vec::new(), Vec::new());
    let [in_first, in_second] = [(); 2].map(|()| journals::length(dice));
    walk(dice, g, &mut at, in_first, &mut first);
    let end = at;
    walk(dice, g, &mut at, 1 + in_second, &mut second);
    if second.is_empty() {
        push(&mut second, fitting(dice, g));
    }
    let journals = [first, second, refused_somewhere(dice, g, start), odd(dice, g, start)];
    let other = markings::inside(dice, g.steps);
    let mut marking = dice.pick(&[start, end, other]);
    if dice.one_in(8) {
        markings::name_beyond(dice, g.steps, &mut marking);
    }
    let record = records::record(dice, g.steps);
    let sheet = in_a_form(dice, g, start);
    Job {
        sheet: damaged(dice, sheet, faults),
        journals,
        marking: marking.bytes(),
        record: records::bytes(dice, g.steps, record),
    }
}

/// Allowed entries, one that is refused in any of the five ways, and others after it.
fn refused_somewhere(dice: &mut Dice, g: &Graph, mut at: Marking) -> Vec<u8> {
    let (mut journal, [before, after]) = (Vec::new(), [(); 2].map(|()| dice.below(12)));
    walk(dice, g, &mut at, before, &mut journal);
    push(&mut journal, refused(dice, g, &at));
    walk(dice, g, &mut at, after, &mut journal);
    journal
}

/// Empty, of bad length, or of any entries.
fn odd(dice: &mut Dice, g: &Graph, at: Marking) -> Vec<u8> {
    let (mut journal, entries) = (Vec::new(), journals::length(dice));
    match dice.below(4) {
        0 => return journal,
        1 => {
            walk(dice, g, &mut { at }, entries, &mut journal);
            journals::spoil_length(dice, &mut journal);
        }
        _ => journals::write(dice, g, at, entries, &mut journal),
    }
    journal
}
