use super::{graphs::first, Dice};
use crate::data::Marking;

/// A marking that only names steps of the graph.
pub fn inside(dice: &mut Dice, steps: u64) -> Marking {
    let mut set = || {
        let density = dice.density();
        dice.set(density) & first(steps)
    };
    Marking { done: set(), due: set(), included: set() }
}

/// Puts one step beyond the graph into one of the sets. A graph of 64 steps has none beyond it.
pub fn name_beyond(dice: &mut Dice, steps: u64, m: &mut Marking) {
    if steps < 64 {
        let step = dice.between(steps as usize, 64);
        *[&mut m.done, &mut m.due, &mut m.included][dice.below(3)] |= 1 << step;
    }
}

/// Most often has everything included that the graph knows, or done, or both, so that a walk can go on for long.
pub fn liven(dice: &mut Dice, steps: u64, m: &mut Marking) {
    let all = first(steps);
    let [done, included] = dice.pick(&[[0, 0], [all, 0], [0, all], [0, all], [all, all]]);
    m.done |= done;
    m.included |= included;
}
