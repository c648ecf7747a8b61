//! Jobs in which a step waits: for nearly all steps that there are, for some or for one, from the start or after other entries.

use super::{
    entries::{fitting, known},
    graphs::{self, first, sized, MOST},
    walks::push,
    Dice,
};
use crate::data::{Entry, Graph, Marking};

#[derive(Clone, Debug)]
pub struct Crowd {
    pub graph: Graph,
    pub marking: Marking,
    /// Entries that pass, all of one step, so that no other is done by them.
    pub before: Vec<u8>,
    /// The one that then waits.
    pub waits: Entry,
}

/// Half of the time it is one step that opens all others and then waits for them: it passes once, where they are excluded.
/// Otherwise another step opens all, and may be taken again and again.
pub fn make(dice: &mut Dice) -> Crowd {
    let mut graph = graph(dice);
    let waits = taken(dice, &mut graph);
    let opens = if dice.one_in(2) { waits } else { taken(dice, &mut graph) };
    let once = opens.step == waits.step;
    let (all, both) = (first(graph.steps), 1 << waits.step | 1 << opens.step);
    let [waiting, opening] = [waits.step, opens.step].map(usize::from);
    graph.conditions[opening] = 0;
    graph.conditions[waiting] = crowd(dice, graph.steps, both) & if once { !both } else { u64::MAX };
    (graph.includes[opening], graph.excludes[opening]) = (all, 0);
    let included = if once || dice.one_in(3) { both } else { all };
    let marking = Marking { done: one_or_none(dice, graph.steps), due: dice.word() & all, included };
    let mut before = Vec::new();
    let times = if once { 1 } else { dice.pick(&[0, 0, 1, 2, 3]) };
    (0..times).for_each(|_| push(&mut before, opens));
    Crowd { graph, marking, before, waits }
}

/// Nearly all, half of the time; or any set; or one step that is none of these.
fn crowd(dice: &mut Dice, steps: u64, but: u64) -> u64 {
    let all = first(steps);
    match dice.below(4) {
        0 => dice.member(all & !but).map_or(0, |step| 1 << step),
        1 => {
            let density = dice.density();
            dice.set(density) & all
        }
        _ => all & !one_or_none(dice, steps),
    }
}

/// The same as one journal: what passes, what waits, and at times others behind it.
pub fn journal(dice: &mut Dice) -> (Graph, Marking, Vec<u8>) {
    let Crowd { graph, marking, before: mut journal, waits } = make(dice);
    push(&mut journal, waits);
    (0..dice.below(3)).for_each(|_| push(&mut journal, fitting(dice, &graph)));
    (graph, marking, journal)
}

/// Has the step wait for all that there are, or all but one, and nothing or one step done.
pub fn gather(dice: &mut Dice, g: &mut Graph, m: &mut Marking, entry: Entry) {
    let (step, all) = (usize::from(entry.step % 64), first(g.steps));
    g.conditions[step] = all & !one_or_none(dice, g.steps);
    m.included = all | 1 << step;
    m.done = one_or_none(dice, g.steps);
}

/// Most often of as many steps as there can be, or one less.
fn graph(dice: &mut Dice) -> Graph {
    let any = dice.between(1, 65);
    let steps = dice.pick(&[64, 64, 64, 63, any]);
    let [_, people, roles, actions] = graphs::sizes(dice, MOST);
    let densities = [(); 6].map(|()| dice.density());
    sized(dice, [steps, people, roles, actions], densities)
}

/// Lets somebody take some step, and with it all that have the same action.
fn taken(dice: &mut Dice, g: &mut Graph) -> Entry {
    let entry = known(dice, g);
    g.holds[usize::from(entry.person)] |= 1 << entry.role;
    g.allows[g.labels[usize::from(entry.step)] as usize] |= 1 << entry.role;
    entry
}

/// One in four times a step.
fn one_or_none(dice: &mut Dice, steps: u64) -> u64 {
    if dice.one_in(4) {
        return 1 << dice.between(0, steps.clamp(1, 64) as usize);
    }
    0
}
