//! Jobs in which what one may take is grey to another: a role or two for each person and each action, while some steps
//! are excluded and some wait.

use super::{
    graphs::{self, first, sized, MOST},
    Density, Dice,
};
use crate::data::{Graph, Marking};

pub fn job(dice: &mut Dice) -> (Graph, Marking) {
    use Density::*;
    let [steps, people, roles, actions] = graphs::sizes(dice, MOST);
    let sizes = [dice.pick(&[64, steps]), people, dice.pick(&[2, 3, 4, roles, roles]), actions];
    let conditions = dice.pick(&[Empty, Sparse, Sparse, Thin]);
    let [responses, includes, excludes] = [(); 3].map(|()| dice.density());
    let mut graph = sized(dice, sizes, [Empty, Empty, conditions, responses, includes, excludes]);
    let roles = graph.roles;
    graph.allows[..sizes[3]].fill_with(|| few(dice, roles));
    graph.holds[..sizes[1]].fill_with(|| few(dice, roles));
    let [done, included] = [(); 2].map(|()| {
        let density = dice.pick(&[Half, Dense, Full, Full]);
        dice.set(density) & first(graph.steps)
    });
    let marking = Marking { done, due: dice.word() & first(graph.steps), included };
    (graph, marking)
}

/// One or two of the roles, now and then none of them or all.
fn few(dice: &mut Dice, roles: u64) -> u64 {
    let [one, other] = [(); 2].map(|()| 1 << dice.below(roles as usize));
    match dice.below(256) {
        0 => 0,
        1..16 => first(roles),
        16..96 => one | other,
        _ => one,
    }
}
