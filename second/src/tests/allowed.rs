//! All steps at once that are allowed to a person, or to someone.

use super::{answers, wrong_from_the_start, Both};
use crate::cases::{self, Case, Dice};
use crate::data::{Allowed, Entry, Graph, Marking};
use crate::model::members;
use crate::sample::{self, CHECKED, REBOOTED, START};
use std::collections::BTreeSet;

const fn allowed(steps: u64) -> Allowed {
    Allowed { number: 0, steps }
}

const fn refused(number: u64) -> Allowed {
    Allowed { number, steps: 0 }
}

/// Who is not there in any graph, some of them only by more than a byte or by more than 32 bits.
const NOBODY: [u64; 8] = [16, 17, 255, 256, 257, 1 << 32, (1 << 32) + 1, u64::MAX];

#[test]
fn of_the_sample_job() {
    let job = Both::new(sample::graph());
    for (marking, climber, desk) in [(START, 0b011, 0b001), (REBOOTED, 0b011, 0b001), (CHECKED, 0b011, 0b101)] {
        assert_eq!([0, 1].map(|person| job.allowed_to(marking, person)), [climber, desk].map(allowed), "{marking:?}");
        assert_eq!(job.allowed_to_someone(marking), allowed(climber | desk), "{marking:?}");
    }
    let nothing = Marking::default();
    assert_eq!((job.allowed_to(nothing, 0), job.allowed_to_someone(nothing)), (allowed(0), allowed(0)));
}

#[test]
fn no_person_is_cut_short() {
    let job = Both::new(sample::graph());
    for person in NOBODY.into_iter().chain([2]) {
        assert_eq!(job.allowed_to(CHECKED, person), refused(11), "{person}");
    }
    let mut all = Graph::bare(1, 16, 1);
    (all.allows[0], all.holds) = (1, [1; 16]);
    let job = Both::new(all);
    assert!((0..16).all(|person| job.allowed_to(Marking::new(0, 0, 1), person) == allowed(1)));
    assert!(NOBODY.iter().all(|person| job.allowed_to(Marking::new(0, 0, 1), *person) == refused(11)));
}

/// With a person who is not there as with one who is.
#[test]
fn what_is_wrong_with_graph_and_marking_comes_first() {
    for (graph, marking, number) in wrong_from_the_start() {
        let job = Both::new(graph);
        assert!([0, 2].into_iter().chain(NOBODY).all(|person| job.allowed_to(marking, person) == refused(number)));
        assert_eq!(job.allowed_to_someone(marking), refused(number));
    }
}

/// Step s has role s alone; person 0 holds the even ones, person 1 the odd ones, person 2 none and person 3 all.
#[test]
fn any_role_that_is_held_is_enough() {
    let mut g = Graph::bare(16, 4, 16);
    (0..16).for_each(|step| g.allows[step] = 1 << step);
    g.holds[..4].copy_from_slice(&[0x5555, 0xaaaa, 0, 0xffff]);
    let (mut alone, open) = (g.clone(), Marking::new(0, 0, 0xffff));
    let job = Both::new(g);
    let held = [0, 1, 2, 3].map(|person| job.allowed_to(open, person).steps);
    assert_eq!((held, job.allowed_to_someone(open).steps), ([0x5555, 0xaaaa, 0, 0xffff], 0xffff));
    alone.holds[3] = 0x8001;
    assert_eq!(Both::new(alone.clone()).allowed_to(open, 3).steps, 0x8001);
    alone.holds[..3].fill(0);
    assert_eq!(Both::new(alone).allowed_to_someone(open).steps, 0x8001);
}

/// The last step among them, of as many as there can be.
#[test]
fn what_waits_and_what_is_excluded() {
    let mut g = Graph::bare(64, 1, 1);
    g.allows.fill(1);
    g.holds[0] = 1;
    let all = u64::MAX;
    assert_eq!(Both::new(g.clone()).allowed_to(Marking::new(0, 0, all), 0), allowed(all));
    assert_eq!(Both::new(g.clone()).allowed_to_someone(Marking::new(0, all, all << 1)), allowed(all << 1));
    g.conditions.fill(1 << 5 | 1 << 63);
    let job = Both::new(g);
    let may = |done, included| job.allowed_to(Marking::new(done, 0, included), 0).steps;
    assert_eq!([may(0, all), may(1 << 5, all), may(1 << 63, all)], [0; 3]);
    assert_eq!([may(1 << 5 | 1 << 63, all), may(1 << 5, all >> 1)], [all, all >> 1]);
    assert_eq!(may(0, !(1 << 5 | 1 << 63)), !(1 << 5 | 1 << 63));
}

/// Each set is what single questions make of it, and someone's is that of all people together.
#[test]
fn as_asked_one_by_one() {
    for case in 0..200 {
        let Case { graph, marking, .. } = cases::make(&mut Dice::new(23, case));
        if graph.steps.saturating_mul(graph.people).saturating_mul(graph.roles) > 500 {
            continue;
        }
        let job = Both::new(graph);
        let of_someone = job.allowed_to_someone(marking);
        let mut together = BTreeSet::new();
        for person in 0..job.graph.people.min(16) {
            let Allowed { number, steps } = job.allowed_to(marking, person);
            assert_eq!(number, of_someone.number, "case {case}");
            let asked = |step, role| job.ask(marking, Entry { person: person as u8, step, role }).number == 0;
            let one_by_one = (0..job.graph.steps as u8).filter(|step| (0..16).any(|role| asked(*step, role)));
            assert_eq!(members(steps), one_by_one.map(u64::from).collect(), "case {case}, person {person}");
            together.append(&mut members(steps));
        }
        assert_eq!(members(of_someone.steps), together, "case {case}");
    }
}

/// Of small graphs and of those of 64 steps; and people differ, so that no one of them may take all that someone may.
#[test]
fn the_bodies_agree_and_every_share_comes_up() {
    let (mut came, mut apart) = (BTreeSet::new(), 0);
    for case in 0..1_000 {
        let Case { graph, marking, .. } = cases::make(&mut Dice::new(29, case));
        let (steps, people) = (graph.steps, graph.people);
        let job = Both::new(graph);
        let share = |set: u64| if set == 0 { 0 } else { 1 + u64::from(u64::from(set.count_ones()) == steps) };
        let of_someone = job.allowed_to_someone(marking);
        let each: Vec<_> = (0..people.min(16)).map(|person| job.allowed_to(marking, person)).collect();
        let unknown = job.allowed_to(marking, people);
        came.extend(each.iter().chain([&unknown]).map(|allowed| ("person", allowed.number)));
        came.insert(("someone", of_someone.number));
        if of_someone.number == 0 {
            let [one, all] = if steps == 64 { ["person of 64", "someone of 64"] } else { ["person's", "someone's"] };
            came.extend(each.iter().map(|allowed| (one, share(allowed.steps))));
            came.insert((all, share(of_someone.steps)));
            apart += u64::from(each.iter().all(|allowed| allowed.steps != of_someone.steps));
        }
    }
    let mut all = answers("person", &[0, 2, 4, 6, 8, 11]);
    all.append(&mut answers("someone", &[0, 2, 4, 6, 8]));
    for call in ["person's", "someone's", "person of 64", "someone of 64"] {
        all.append(&mut answers(call, &[0, 1, 2]));
    }
    assert_eq!(came, all);
    assert!(apart > 20, "{apart}");
}
