//! Jobs that can still end and jobs that cannot, most of them small, each with a store: of every size, full of
//! something, and now and then no store at all.

use super::{
    graphs::{self, first, MOST},
    greying, harm, job, lively_job, markings, Density, Dice,
};
use crate::data::{Bytes, Ends, Graph, Marking, NONE, REACHABLE, UNDECIDED};
use crate::peer;
use crate::sample;

#[derive(Clone, Debug)]
pub struct End {
    pub graph: Graph,
    pub marking: Marking,
    pub store: Bytes,
}

/// The bytes of a marking, and the most markings of a store.
const BYTES: usize = 24;
const PLACES: usize = 2_048;

/// Where graph or marking are damaged there is often no store either, so that the order of the refusals is tried.
pub fn make(dice: &mut Dice) -> End {
    let (mut graph, mut marking) = whole(dice);
    let (_, found) = found(&graph, marking);
    let harmed = dice.one_in(6);
    let length = if dice.one_in(if harmed { 3 } else { 16 }) {
        no_store(dice)
    } else {
        BYTES * places(dice, graph.steps, found.len() / BYTES)
    };
    let store = Bytes(filled(dice, &found, length));
    if harmed && dice.one_in(4) {
        markings::name_beyond(dice, graph.steps, &mut marking);
    } else if harmed {
        harm(dice, &mut graph, &mut marking);
    }
    End { graph, marking, store }
}

/// A store for all 2,048, or nearly, and a job that comes near to filling it: as often undecided as with either answer.
pub fn full(dice: &mut Dice) -> End {
    let wanted = dice.pick(&[UNDECIDED, NONE, REACHABLE]);
    // One of some hundreds is as wanted; where none of all these is, the peer is wrong.
    for _ in 0..20_000 {
        let steps =
            if wanted == REACHABLE { 8 + dice.below(5) } else { dice.pick(&[8, 9, 10, 11, 12, 20, 40, 63, 64]) };
        let (graph, marking) = wide(dice, steps);
        let (ends, found) = found(&graph, marking);
        if ends.verdict == wanted && found.len() / BYTES > PLACES / 2 {
            let length = dice.pick(&[BYTES * PLACES, BYTES * PLACES, found.len(), found.len() - BYTES]);
            return End { graph, marking, store: Bytes(filled(dice, &found, length)) };
        }
    }
    panic!("no job with {wanted} as the verdict")
}

fn whole(dice: &mut Dice) -> (Graph, Marking) {
    match dice.below(32) {
        0 => job(dice),
        1 => lively_job(dice),
        2 => greying::job(dice),
        3..6 => {
            let steps = 7 + dice.below(6);
            wide(dice, steps)
        }
        6 | 7 => rewritten(dice),
        8..13 => chain(dice),
        _ => small(dice),
    }
}

/// The sample job, at times with an action that has lost its roles, or a person who has.
fn rewritten(dice: &mut Dice) -> (Graph, Marking) {
    let mut graph = sample::graph();
    match dice.below(4) {
        0 => graph.allows[dice.below(3)] = 0,
        1 => graph.holds[dice.below(2)] = 0,
        _ => {}
    }
    (graph, dice.pick(&[sample::START, sample::REBOOTED, sample::REBOOTED, sample::CHECKED]))
}

/// One to six steps, any arrows, and most often something due that is included.
fn small(dice: &mut Dice) -> (Graph, Marking) {
    use Density::*;
    let [steps, people, roles, actions] = [6, 3, 3, 6].map(|most| 1 + dice.below(most));
    let [allows, holds] = [(); 2].map(|()| dice.pick(&[Half, Dense, Full, Full, Full]));
    let [conditions, responses, includes, excludes] =
        [(); 4].map(|()| dice.pick(&[Empty, Sparse, Sparse, Thin, Thin, Half]));
    let densities = [allows, holds, conditions, responses, includes, excludes];
    let graph = graphs::sized(dice, [steps, people, roles, actions], densities);
    let mut marking = markings::inside(dice, graph.steps);
    if !dice.one_in(8) {
        marking.included |= dice.pick(&[0, u64::MAX, u64::MAX, u64::MAX]) & first(graph.steps);
        marking.due |= 1 << dice.below(steps);
    }
    marking.done &= dice.pick(&[0, 0, u64::MAX]);
    (graph, marking)
}

/// Steps of which each waits for the one before, in any order of their numbers, and the last is due: so many entries.
fn chain(dice: &mut Dice) -> (Graph, Marking) {
    let steps = 2 + dice.below(9);
    let few = dice.pick(&[Density::Empty, Density::Empty, Density::Sparse]);
    let roles = dice.pick(&[Density::Full, Density::Full, Density::Half]);
    let mut graph = graphs::sized(dice, [steps, 2, 2, steps], [roles, roles, few, few, few, few]);
    let mut order: Vec<usize> = (0..steps).collect();
    (1..steps).rev().for_each(|i| order.swap(i, dice.below(i + 1)));
    order.windows(2).for_each(|pair| graph.conditions[pair[1]] |= 1 << pair[0]);
    let marking = Marking::new(0, 1 << order[steps - 1], first(graph.steps));
    (graph, marking)
}

/// Few arrows, so that there are many markings; most often some step stays due.
fn wide(dice: &mut Dice, steps: usize) -> (Graph, Marking) {
    use Density::*;
    let [_, people, roles, _] = MOST.map(|most| dice.pick(&[1, 2, most]));
    let held = dice.pick(&[Thin, Half, Full]);
    let [conditions, includes, excludes] = [(); 3].map(|()| dice.pick(&[Empty, Sparse, Sparse, Thin]));
    let responses = dice.pick(&[Sparse, Thin, Half]);
    let densities = [Half, held, conditions, responses, includes, excludes];
    let graph = graphs::sized(dice, [steps, people, roles, steps], densities);
    let all = first(graph.steps);
    let marking = Marking::new(0, dice.word() & all | 1 << dice.below(steps), all);
    (graph, marking)
}

/// The answer with a store for all 2,048, and what that has at its front then: where nothing was written, two stores
/// differ.
fn found(graph: &Graph, marking: Marking) -> (Ends, Vec<u8>) {
    let [mut store, mut other] = [0, 0xff].map(|byte| vec![byte; BYTES * PLACES]);
    let ends = peer::can_end(graph, marking, &mut store);
    peer::can_end(graph, marking, &mut other);
    let written = store.iter().zip(&other).take_while(|(one, other)| one == other).count();
    store.truncate(written);
    (ends, store)
}

/// For as many as there are, for one less or more, for few, or for any number up to the most. Jobs of many steps have
/// small stores, since the model takes its time.
fn places(dice: &mut Dice, steps: u64, found: usize) -> usize {
    let few = if dice.one_in(2) { 8 } else { 64 };
    let places = match dice.below(8) {
        0..3 => dice.pick(&[found.saturating_sub(1), found, found, found + 1]),
        3 => dice.below(found + 1),
        4 => dice.between(1, PLACES + 1),
        5 => dice.pick(&[1, 2, 3, PLACES - 1, PLACES]),
        _ => dice.between(1, few + 1),
    };
    let most = if steps > 12 && !dice.one_in(32) { 16 } else { PLACES };
    places.clamp(1, most)
}

/// None at all, a part of a marking too few or too many, or too many markings.
fn no_store(dice: &mut Dice) -> usize {
    let whole = BYTES * dice.below(40);
    match dice.below(4) {
        0 => 0,
        1 => whole + 1 + dice.below(BYTES - 1),
        2 => BYTES * dice.pick(&[PLACES + 1, PLACES + 1, PLACES + 2, 2 * PLACES, 4_096 + 3]),
        _ => dice.pick(&[1, 8, 16, 23, 25, 32, BYTES * PLACES - 1, BYTES * PLACES + 1, BYTES * PLACES + 8]),
    }
}

/// Any bytes; or markings of the job itself, each in another's place, so that one who reads where nothing was found yet
/// is seen to.
fn filled(dice: &mut Dice, found: &[u8], length: usize) -> Vec<u8> {
    let mut store: Vec<u8> = std::iter::repeat_with(|| dice.word().to_le_bytes()).flatten().take(length).collect();
    if dice.one_in(3) {
        let turn = BYTES * (1 + dice.below(4)) % found.len().max(1);
        let turned = found[turn..].iter().chain(&found[..turn]);
        store.iter_mut().zip(turned).for_each(|(place, byte)| *place = *byte);
    }
    store
}
