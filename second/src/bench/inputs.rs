//! Graphs of 64 steps, or fewer, as many actions, 16 people and 16 roles, with arrows nearly everywhere. They are loaded before the
//! race, and few enough to stay in the nearest cache: the calls are raced, not the memory.

use second::cases::{self, Case, Density, Dice};
use second::data::{Ends, Entry, Graph, Marking};
use second::peer;

const GRAPHS: u64 = 8;

/// What is done to a marking so that the entry gets the wanted answer.
pub type Bend = fn(&mut Dice, &Graph, &mut Marking, Entry);

/// With 64 steps no arrow can name a step beyond and no row stands beyond, and with fewer both are asked: a check of the one
/// tells nothing of the other.
pub const SIZES: [usize; 2] = [64, 40];

/// The name of a line over graphs of so many steps.
pub fn named(name: &str, steps: usize) -> String {
    if steps == 64 {
        name.to_string()
    } else {
        format!("{name}/{steps}")
    }
}

pub fn full(bend: Bend) -> Vec<Case> {
    of_steps(64, bend)
}

pub fn of_steps(steps: usize, bend: Bend) -> Vec<Case> {
    (0..GRAPHS)
        .map(|index| {
            let mut dice = Dice::new(64, index);
            let graph = dense(&mut dice, steps);
            let mut marking = cases::inside(&mut dice, graph.steps);
            let entry = cases::fitting(&mut dice, &graph);
            bend(&mut dice, &graph, &mut marking, entry);
            Case { graph, marking, entry }
        })
        .collect()
}

/// Half of the steps wait for one that is not done, some are excluded, and of those that someone may take the entry's
/// person may take some: no row can be guessed from those before it.
pub fn greying(steps: usize) -> Vec<Case> {
    let case = |index| {
        let mut dice = Dice::new(64, index);
        let [few, half, most] = [Density::Thin, Density::Half, Density::Dense];
        let graph = shared(&mut dice, steps, [few, few, half, most, most, most]);
        let (all, open) = (u64::MAX >> (64 - steps), 1 << dice.below(steps));
        let marking = Marking::new(all & !open, dice.word() & all, dice.set(most) & all | open);
        let someone = peer::allowed_to_someone(&graph, marking).steps;
        let may_some = |person: &u8| {
            let steps = peer::allowed_to(&graph, marking, (*person).into()).steps;
            steps != 0 && steps != someone && someone != marking.included
        };
        let person = (0..16).find(may_some).expect("one who may take some steps, and not all that others may");
        Case { graph, marking, entry: Entry { person, ..Entry::default() } }
    };
    (0..GRAPHS).map(case).collect()
}

fn dense(dice: &mut Dice, steps: usize) -> Graph {
    shared(dice, steps, [Density::Dense; 6])
}

/// Each step has any action: some share one, some actions are nobody's, and the roles of a step are not beside those of the one
/// before it.
fn shared(dice: &mut Dice, steps: usize, densities: [Density; 6]) -> Graph {
    let mut graph = cases::sized(dice, [steps, 16, 16, steps], densities);
    graph.labels[..steps].fill_with(|| dice.below(steps) as u64);
    graph
}

/// A full graph with a journal of so many entries that runs through from the marking.
pub struct Job {
    pub graph: Graph,
    pub marking: Marking,
    pub journal: Vec<u8>,
}

/// Everything is done and included at the start, so that a walk never gets stuck.
pub fn job(entries: usize) -> Job {
    let mut dice = Dice::new(64, entries as u64);
    let graph = dense(&mut dice, 64);
    let marking = Marking::new(u64::MAX, dice.word(), u64::MAX);
    let mut journal = Vec::new();
    cases::walk(&mut dice, &graph, &mut marking.clone(), entries, &mut journal);
    assert_eq!(journal.len(), 3 * entries, "the walk got stuck");
    Job { graph, marking, journal }
}

/// A graph that is searched for an end from the marking on.
pub struct Search {
    pub graph: Graph,
    pub marking: Marking,
}

/// The first graphs of so many steps, with few arrows, whose search ends as wanted with the largest store. Nothing is done
/// at the start and all is included.
pub fn searches(steps: usize, wanted: fn(&Ends) -> bool) -> Vec<Search> {
    let (few, half, mut store) = (Density::Sparse, Density::Thin, vec![0; 24 * 2_048]);
    let search = |index| {
        let mut dice = Dice::new(64, index);
        let graph = shared(&mut dice, steps, [half, half, few, half, few, few]);
        let all = u64::MAX >> (64 - steps);
        Search { graph, marking: Marking::new(0, dice.word() & all, all) }
    };
    let right = |search: &Search| wanted(&peer::can_end(&search.graph, search.marking, &mut store));
    let found: Vec<_> = (0..100_000).map(search).filter(right).take(GRAPHS as usize).collect();
    assert_eq!(found.len(), GRAPHS as usize, "not as many as are wanted");
    found
}
