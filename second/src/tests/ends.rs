//! Can the job still end?

use super::{answers, wrong_from_the_start, Both};
use crate::cases::{ends, Dice};
use crate::data::{Ends, Entry, Graph, Marking, NONE, REACHABLE, UNDECIDED};
use crate::model;
use crate::sample::{self, CHECKED, REBOOTED, START};
use std::collections::BTreeSet;

const fn reachable(fewest: u64, looked: u64) -> Ends {
    Ends { number: 0, verdict: REACHABLE, fewest, looked }
}

const fn none(looked: u64) -> Ends {
    Ends { number: 0, verdict: NONE, fewest: 0, looked }
}

const fn undecided(looked: u64) -> Ends {
    Ends { number: 0, verdict: UNDECIDED, fewest: 0, looked }
}

const fn refused(number: u64) -> Ends {
    Ends { number, verdict: 0, fewest: 0, looked: 0 }
}

/// So many steps without arrows, which one person may take.
fn free(steps: u64) -> Graph {
    let mut g = Graph::bare(steps, 1, 1);
    g.allows[..steps as usize].fill(1);
    g.holds[0] = 1;
    g
}

/// A marking is asked for whether it is finished when its turn comes, and not when it is found.
#[test]
fn two_steps_of_which_one_is_due() {
    let (job, start) = (Both::new(free(2)), Marking::new(0, 0b01, 0b11));
    let found = [start, Marking::new(0b01, 0, 0b11), Marking::new(0b10, 0b01, 0b11)];
    assert_eq!(job.can_end(start, 24), (undecided(1), found[..1].to_vec()));
    assert_eq!(job.can_end(start, 48), (undecided(1), found[..2].to_vec()));
    assert_eq!(job.can_end(start, 72), (reachable(1, 2), found.to_vec()));
    assert_eq!(job.can_end(start, 24 * 2_048), (reachable(1, 2), found.to_vec()));
}

/// One that is finished is looked at, and its steps are not tried: there need be no room for more.
#[test]
fn the_sample_job() {
    let job = Both::new(sample::graph());
    assert_eq!(job.can_end(START, 24), (reachable(0, 1), vec![START]));
    assert_eq!(job.can_end(CHECKED, 24 * 2_048), (reachable(0, 1), vec![CHECKED]));
    assert_eq!(job.can_end(REBOOTED, 24), (undecided(1), vec![REBOOTED]));
    assert_eq!(job.can_end(REBOOTED, 48), (reachable(1, 2), vec![REBOOTED, CHECKED]));
}

/// After the office rewrite nobody may take the order check.
#[test]
fn a_job_that_cannot_end() {
    let mut rewritten = sample::graph();
    rewritten.allows[1] = 0;
    let job = Both::new(rewritten.clone());
    assert_eq!(job.can_end(REBOOTED, 24), (none(1), vec![REBOOTED]));
    assert_eq!(job.can_end(START, 24).0, reachable(0, 1));
    // The reboot does not exclude publishing now, which makes the check due once more.
    (rewritten.excludes[0], rewritten.conditions[2], rewritten.responses[2]) = (0, 0, 0b010);
    let open = Marking { included: 0b111, ..REBOOTED };
    let found = vec![open, Marking { done: 0b101, ..open }];
    let job = Both::new(rewritten);
    assert_eq!(job.can_end(open, 48), (none(2), found.clone()));
    assert_eq!(job.can_end(open, 24), (undecided(1), found[..1].to_vec()));
}

/// Eleven steps may be done in any order, and one that is due by nobody: all sets of the eleven, which are 2,048.
#[test]
fn as_many_as_a_store_is_for() {
    let mut g = free(12);
    g.allows[11] = 0;
    let (job, start) = (Both::new(g), Marking::new(0, 1 << 11, 0xfff));
    let (ends, found) = job.can_end(start, 24 * 2_048);
    assert_eq!((ends, found.len()), (none(2_048), 2_048));
    let sizes: Vec<u32> = found.iter().map(|marking| marking.done.count_ones()).collect();
    assert!(sizes.is_sorted(), "the nearer first");
    // The last is missed at the first marking with ten of them done, before which there are all with less.
    assert_eq!(job.can_end(start, 24 * 2_047), (undecided(2_048 - 11), found[..2_047].to_vec()));
    let twelve = Both::new(Graph { steps: 13, actions: 13, ..with_one_more(&job.graph) });
    let (ends, found) = twelve.can_end(Marking { included: 0x1fff, ..start }, 24 * 2_048);
    assert_eq!((ends.verdict, found.len()), (UNDECIDED, 2_048));
}

fn with_one_more(g: &Graph) -> Graph {
    let mut g = g.clone();
    (g.allows[12], g.labels[12]) = (1, 12);
    g
}

/// Each of 64 steps waits for the one before it, and the last is due. All sixteen people and roles are gone through.
#[test]
fn a_long_way() {
    let mut g = Graph::bare(64, 16, 16);
    (1..64).for_each(|step| g.conditions[step] = 1 << (step - 1));
    (g.allows, g.holds[15]) = ([1 << 15; 64], 1 << 15);
    let (job, start) = (Both::new(g), Marking::new(0, 1 << 63, u64::MAX));
    let (ends, found) = job.can_end(start, 24 * 65);
    assert_eq!(ends, reachable(64, 65));
    let right = (0..64).map(|done| Marking { done: (1 << done) - 1, ..start });
    assert_eq!(found, right.chain([Marking::new(u64::MAX, 0, u64::MAX)]).collect::<Vec<_>>());
    assert_eq!(job.can_end(start, 24 * 64), (undecided(64), found[..64].to_vec()));
}

/// The same step again leads elsewhere where it is its own response or comes to be included anew.
#[test]
fn markings_that_were_found_before_are_passed_over() {
    let mut g = free(2);
    (g.responses[0], g.excludes[0], g.includes[1]) = (0b01, 0b10, 0b10);
    let (job, start) = (Both::new(g), Marking::new(0, 0b01, 0b11));
    let found = [(0b00, 0b11), (0b01, 0b01), (0b10, 0b11), (0b11, 0b01)];
    let found = found.map(|(done, included)| Marking::new(done, 0b01, included)).to_vec();
    assert_eq!(job.can_end(start, 24 * 4), (none(4), found.clone()));
    assert_eq!(job.can_end(start, 24 * 3), (undecided(3), found[..3].to_vec()));
}

#[test]
fn refusals_in_their_order() {
    for (graph, marking, number) in wrong_from_the_start() {
        let job = Both::new(graph);
        assert!([0, 1, 24, 24 * 2_049].iter().all(|store| job.can_end(marking, *store) == (refused(number), vec![])));
    }
}

#[test]
fn stores_that_are_none() {
    let job = Both::new(sample::graph());
    let most = 24 * 2_048;
    for store in [0, 1, 8, 23, 25, 47, most - 1, most + 1, most + 24, 2 * most, 24 * 65_537] {
        assert_eq!(job.can_end(REBOOTED, store), (refused(22), vec![]), "{store}");
    }
    assert!([24, 48, most - 24, most].iter().all(|store| job.can_end(REBOOTED, *store).0.number == 0));
}

/// Every entry at once, whoever takes it: what can be reached, and after how many entries something finished is.
fn by_entries(g: &Graph, start: Marking) -> (BTreeSet<[u64; 3]>, Option<u64>) {
    let plain = model::Graph::read(g);
    let words = |m: Marking| [m.done, m.due, m.included];
    let (mut all, mut edge, mut fewest) = (BTreeSet::from([words(start)]), vec![start], None);
    for entries in 0.. {
        if fewest.is_none() && edge.iter().any(|m| m.due & m.included == 0) {
            fewest = Some(entries);
        }
        let mut next = Vec::new();
        for (m, [person, step, role]) in edge.iter().flat_map(|m| entries_of(g).map(move |entry| (m, entry))) {
            let moved = model::take(&plain, *m, Entry { person, step, role });
            if moved.number == 0 && all.insert(words(moved.marking)) {
                next.push(moved.marking);
            }
        }
        if next.is_empty() {
            break;
        }
        edge = next;
    }
    (all, fewest)
}

fn entries_of(g: &Graph) -> impl Iterator<Item = [u8; 3]> {
    let [people, steps, roles] = [g.people, g.steps, g.roles].map(|count| count as u8);
    (0..people)
        .flat_map(move |person| (0..steps).map(move |step| (person, step)))
        .flat_map(move |(person, step)| (0..roles).map(move |role| [person, step, role]))
}

/// None exactly where nothing that can be reached is finished, and then it is all of that; otherwise the fewest
/// entries. Each marking but the start is one entry away from one before it, and none stands there twice.
#[test]
fn as_reached_by_entries() {
    let mut seen = [0; 4];
    for case in 0..600 {
        let ends::End { graph, marking, .. } = ends::make(&mut Dice::new(37, case));
        if graph.steps > 5 || graph.people > 3 || graph.roles > 3 {
            continue;
        }
        let job = Both::new(graph);
        let (ends, found) = job.can_end(marking, 24 * 2_048);
        if ends.number != 0 {
            continue;
        }
        let (all, fewest) = by_entries(&job.graph, marking);
        let stored: BTreeSet<_> = found.iter().map(|m| [m.done, m.due, m.included]).collect();
        assert_eq!(stored.len(), found.len(), "case {case}");
        assert!(stored.is_subset(&all), "case {case}");
        match ends.verdict {
            NONE => assert_eq!((fewest, &stored, ends.looked), (None, &all, all.len() as u64), "case {case}"),
            REACHABLE => assert_eq!(fewest, Some(ends.fewest), "case {case}"),
            _ => assert!(all.len() > 2_048, "case {case}"),
        }
        let moved = |m: &Marking, to: &Marking| {
            let mut entries = entries_of(&job.graph).map(|[person, step, role]| Entry { person, step, role });
            entries.any(|entry| job.take(*m, entry).marking == *to)
        };
        for (place, to) in found.iter().enumerate().skip(1).take(40) {
            assert!(found[..place].iter().any(|m| moved(m, to)), "case {case}, place {place}");
        }
        seen[ends.verdict as usize] += 1;
    }
    assert!(seen[NONE as usize] > 50 && seen[REACHABLE as usize] > 50, "{seen:?}");
}

/// A smaller store has the same markings, as many as there is room for; it says the same, or that it is undecided.
#[test]
fn stores_of_every_size() {
    let mut seen = BTreeSet::new();
    for case in 0..60 {
        let ends::End { graph, marking, .. } = ends::make(&mut Dice::new(41, case));
        if graph.steps > 6 {
            continue;
        }
        let job = Both::new(graph);
        let (right, all) = job.can_end(marking, 24 * 2_048);
        for places in (1..=all.len() + 1).filter(|_| right.number == 0) {
            let (ends, found) = job.can_end(marking, 24 * places);
            let enough = places >= all.len();
            assert!(ends == right || (ends.verdict == UNDECIDED && !enough), "case {case}, for {places}");
            assert!(ends.looked <= right.looked, "case {case}, for {places}");
            assert_eq!(found, all[..places.min(all.len())], "case {case}, for {places}");
            seen.insert((ends.verdict, enough));
        }
    }
    assert_eq!(seen, BTreeSet::from([(UNDECIDED, false), (NONE, true), (REACHABLE, true)]));
}

#[test]
fn the_bodies_agree_and_every_answer_comes_up() {
    let mut came = BTreeSet::new();
    for case in 0..2_000 {
        let ends::End { graph, marking, store } = ends::make(&mut Dice::new(43, case));
        let (ends, _) = Both::new(graph).can_end(marking, store.len());
        came.extend([("number", ends.number), ("verdict", ends.verdict), ("fewest", ends.fewest.min(5))]);
    }
    let mut all = answers("number", &[0, 2, 4, 6, 8, 22]);
    all.append(&mut answers("verdict", &[0, UNDECIDED, NONE, REACHABLE]));
    all.append(&mut answers("fewest", &[0, 1, 2, 3, 4, 5]));
    assert_eq!(came, all);
}
