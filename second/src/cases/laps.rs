//! A stem and a lap: allowed for ever, or refused in the stem, in the first lap or only in the second.

use super::{
    crowds::{self, Crowd},
    entries::fitting,
    harm,
    journals::{spoil_length, write, FULL},
    lively_job,
    walks::{push, walk},
    Dice,
};
use crate::data::{Bytes, Graph, Marking};

#[derive(Clone, Debug)]
pub struct Lap {
    pub graph: Graph,
    pub marking: Marking,
    pub stem: Bytes,
    pub lap: Bytes,
}

pub fn make(dice: &mut Dice) -> Lap {
    let Lap { mut graph, mut marking, stem: Bytes(mut stem), lap: Bytes(mut lap) } = whole(dice);
    if dice.one_in(20) {
        let one = if dice.one_in(2) { &mut stem } else { &mut lap };
        spoil_length(dice, one);
    }
    if dice.one_in(20) {
        lap.clear();
    }
    if dice.one_in(4) {
        harm(dice, &mut graph, &mut marking);
    }
    Lap { graph, marking, stem: Bytes(stem), lap: Bytes(lap) }
}

fn whole(dice: &mut Dice) -> Lap {
    if dice.one_in(5) {
        return crowded(dice);
    }
    let (graph, marking) = lively_job(dice);
    let (stem, lap) = journals(dice, &graph, marking);
    Lap { graph, marking, stem: Bytes(stem), lap: Bytes(lap) }
}

/// A step waits, most often for many: in the stem, behind what passes in the lap, or in a lap of its own, that may pass once.
fn crowded(dice: &mut Dice) -> Lap {
    let Crowd { graph, marking, before, waits } = crowds::make(dice);
    let mut alone = Vec::new();
    push(&mut alone, waits);
    let (stem, lap) = match dice.below(3) {
        0 => ([before, alone.clone()].concat(), alone),
        1 => {
            let (stem, in_lap) = before.split_at(3 * dice.below(before.len() / 3 + 1));
            (stem.to_vec(), [in_lap, &alone].concat())
        }
        _ => (Vec::new(), alone),
    };
    Lap { graph, marking, stem: Bytes(stem), lap: Bytes(lap) }
}

/// The lap is of full length, and allowed once.
pub fn full(dice: &mut Dice) -> Lap {
    loop {
        let (graph, marking) = lively_job(dice);
        let in_stem = dice.below(10);
        let (mut at, mut stem, mut lap) = (marking, Vec::new(), Vec::new());
        walk(dice, &graph, &mut at, in_stem, &mut stem);
        walk(dice, &graph, &mut at, FULL, &mut lap);
        if lap.len() == 3 * FULL {
            return Lap { graph, marking, stem: Bytes(stem), lap: Bytes(lap) };
        }
    }
}

fn length(dice: &mut Dice) -> usize {
    let most = if dice.one_in(100) { 200 } else { dice.pick(&[1, 2, 4, 8, 8, 16]) };
    dice.below(most + 1)
}

/// Most often both are allowed one after the other; now and then one of them is not. The lap is not empty.
fn journals(dice: &mut Dice, g: &Graph, marking: Marking) -> (Vec<u8>, Vec<u8>) {
    let (in_stem, in_lap) = (length(dice), 1 + length(dice));
    let (mut at, mut stem, mut lap) = (marking, Vec::new(), Vec::new());
    if dice.one_in(6) {
        write(dice, g, at, in_stem, &mut stem);
    } else {
        walk(dice, g, &mut at, in_stem, &mut stem);
    }
    if dice.one_in(4) {
        write(dice, g, at, in_lap, &mut lap);
    } else {
        walk(dice, g, &mut at, in_lap, &mut lap);
    }
    if lap.is_empty() {
        push(&mut lap, fitting(dice, g));
    }
    (stem, lap)
}
