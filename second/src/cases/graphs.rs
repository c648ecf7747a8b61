use super::{Density, Dice};
use crate::data::Graph;

/// The set of the numbers below `count`, all 64 of them where it is more.
pub fn first(count: u64) -> u64 {
    (0..count.min(64)).fold(0, |set, s| set | 1 << s)
}

/// So many steps, people, roles and actions at most. A quarter of the time there are as many actions as steps; otherwise there are
/// more or fewer.
pub fn sizes(dice: &mut Dice, most: [usize; 4]) -> [usize; 4] {
    let [steps, people, roles, actions] = most.map(|most| dice.between(1, most + 1));
    [steps, people, roles, if dice.one_in(4) { steps } else { actions }]
}

/// As many of each as there can be.
pub const MOST: [usize; 4] = [64, 16, 16, 64];

pub fn well_formed(dice: &mut Dice) -> Graph {
    let sizes = sizes(dice, MOST);
    let mut densities = [(); 6].map(|()| dice.density());
    // Without roles every entry would be refused for want of one.
    densities[..2].fill_with(|| dice.pick(&[Density::Thin, Density::Half, Density::Dense, Density::Full]));
    sized(dice, sizes, densities)
}

/// One on which a walk can go on for long, most often: little is waited for, and little is excluded for good.
pub fn lively(dice: &mut Dice) -> Graph {
    use Density::*;
    let sizes = sizes(dice, MOST);
    let [allows, holds] = [(); 2].map(|()| dice.pick(&[Thin, Half, Dense, Full]));
    let conditions = dice.pick(&[Empty, Sparse, Sparse, Thin]);
    let [responses, includes] = [(); 2].map(|()| dice.density());
    let excludes = dice.pick(&[Empty, Sparse, Sparse, Thin, Half]);
    sized(dice, sizes, [allows, holds, conditions, responses, includes, excludes])
}

/// A well-formed graph of so many steps, people, roles and actions. The densities are those of `allows`, `holds`, `conditions`,
/// `responses`, `includes` and `excludes`; where the last two meet, one of them gives way.
pub fn sized(dice: &mut Dice, sizes: [usize; 4], densities: [Density; 6]) -> Graph {
    let [steps, people, roles, actions] = sizes.map(|size| size as u64);
    let mut g = Graph { actions, ..Graph::bare(steps, people, roles) };
    label(dice, &mut g.labels[..sizes[0]], sizes[3]);
    let [allows, holds, conditions, responses, includes, excludes] = densities;
    let (all_steps, all_roles) = (first(steps), first(roles));
    for person in 0..sizes[1] {
        g.holds[person] = dice.set(holds) & all_roles;
    }
    for action in 0..sizes[3] {
        g.allows[action] = dice.set(allows) & all_roles;
    }
    for step in 0..sizes[0] {
        g.conditions[step] = dice.set(conditions) & all_steps;
        g.responses[step] = dice.set(responses) & all_steps;
        let (includes, excludes, stays) = (dice.set(includes), dice.set(excludes), dice.word());
        g.includes[step] = includes & (stays | !excludes) & all_steps;
        g.excludes[step] = excludes & (!stays | !includes) & all_steps;
    }
    g
}

/// Of each step: any action, most often the first or the last of them, so that many are shared and some are nobody's; or one for
/// all steps; or each its own, as far as there are so many, from the first on or from the last.
fn label(dice: &mut Dice, labels: &mut [u64], actions: usize) {
    let (how, one) = (dice.below(6), dice.between(0, actions));
    for (step, label) in labels.iter_mut().enumerate() {
        *label = match how {
            0 => one,
            1 => step % actions,
            2 => actions - 1 - step % actions,
            3 => dice.below(actions),
            _ => dice.between(0, actions),
        } as u64;
    }
}

/// The roles of each step, which are those of its action, as far as the graph has such.
pub fn roles_of_steps(g: &Graph) -> [u64; 64] {
    let steps = first(g.steps);
    std::array::from_fn(|step| {
        let action = usize::try_from(g.labels[step]).ok().filter(|_| steps >> step & 1 == 1);
        action.and_then(|action| g.allows.get(action)).copied().unwrap_or(0)
    })
}

/// Anything at all, half of the time with the largest counts and nothing beyond them, so that not every such graph falls there.
pub fn noise(dice: &mut Dice) -> Graph {
    let tame = dice.one_in(2);
    let [steps, people, roles, actions] =
        if tame { MOST.map(|most| most as u64) } else { [(); 4].map(|()| dice.any_size()) };
    let mut g = Graph { actions, ..Graph::bare(steps, people, roles) };
    g.labels = g.labels.map(|_| if tame { dice.below(64) as u64 } else { dice.any_size() });
    let roles = if tame { first(16) } else { u64::MAX };
    g.allows = g.allows.map(|_| dice.word() & roles);
    g.holds = g.holds.map(|_| dice.word() & roles);
    for rows in [&mut g.conditions, &mut g.responses, &mut g.includes, &mut g.excludes] {
        let density = dice.density();
        *rows = rows.map(|_| dice.set(density));
    }
    g
}
