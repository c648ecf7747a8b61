//! Roles belong to actions, and each step has an action: steps that share one cannot drift apart.

use super::{written, Both};
use crate::data::{Allowed, Entry, Graph, Marking};
use crate::sample;

/// A double mast: a reboot, the order checks of both arms, which are one action, and publishing. Person 0 climbs, person 1 is at the
/// desk; action 3 is nobody's.
fn masts() -> Graph {
    let mut g = Graph { actions: 4, ..Graph::bare(4, 2, 2) };
    g.labels[..4].copy_from_slice(&[0, 1, 1, 2]);
    g.allows[..4].copy_from_slice(&[0b11, 0b01, 0b10, 0b11]);
    g.holds[..2].copy_from_slice(&[0b01, 0b10]);
    g.conditions[3] = 0b0110;
    g
}

const OPEN: Marking = Marking::new(0, 0, 0b1111);

const fn entry(person: u8, step: u8, role: u8) -> Entry {
    Entry { person, step, role }
}

#[test]
fn one_role_set_for_both_checks() {
    let job = Both::new(masts());
    assert_eq!([1, 2].map(|check| job.ask(OPEN, entry(0, check, 0)).number), [0; 2]);
    assert_eq!([1, 2].map(|check| job.ask(OPEN, entry(1, check, 1)).number), [13; 2]);
    assert_eq!([0, 1].map(|person| job.allowed_to(OPEN, person).steps), [0b0111, 0b0001]);
    assert_eq!(job.allowed_to_someone(OPEN).steps, 0b0111);
    let mut to_the_desk = masts();
    to_the_desk.allows[1] = 0b10;
    let job = Both::new(to_the_desk);
    assert_eq!([1, 2].map(|check| job.ask(OPEN, entry(0, check, 0)).number), [13; 2]);
    assert_eq!([1, 2].map(|check| job.ask(OPEN, entry(1, check, 1)).number), [0; 2]);
    assert_eq!([0, 1].map(|person| job.allowed_to(OPEN, person).steps), [0b0001, 0b0111]);
}

/// They are two steps in everything else.
#[test]
fn each_check_is_done_for_itself() {
    let job = Both::new(masts());
    let publish = entry(1, 3, 1);
    let after = job.take(OPEN, entry(0, 1, 0)).marking;
    assert_eq!(after, Marking::new(0b0010, 0, 0b1111));
    assert_eq!((job.ask(after, publish).number, job.ask(after, publish).waiting), (15, 0b0100));
    let ran = job.run(OPEN, &written(&[entry(0, 2, 0), entry(0, 1, 0), publish]));
    assert_eq!((ran.number, ran.entries, ran.marking), (0, 3, Marking::new(0b1110, 0, 0b1111)));
}

/// The same as when each step is an action of its own and has the roles of what was its action.
#[test]
fn steps_go_by_the_roles_of_their_actions() {
    let (mut own, shared) = (Graph { actions: 4, ..Graph::bare(4, 2, 2) }, masts());
    own.allows[..4].copy_from_slice(&[0b11, 0b01, 0b01, 0b10]);
    (own.holds, own.conditions) = (shared.holds, shared.conditions);
    let [shared, own] = [shared, own].map(Both::new);
    for all in 0..4 * 3 * 5 {
        let entry = entry(all % 3, all / 3 % 5, all / 15);
        assert_eq!(shared.take(OPEN, entry), own.take(OPEN, entry), "{entry:?}");
        assert_eq!(shared.fold(&written(&[entry])), own.fold(&written(&[entry])), "{entry:?}");
    }
}

/// What is stored for no step is 0, and so action 0 has roles: the step is unknown all the same.
#[test]
fn no_step_has_the_roles_of_action_0() {
    let job = Both::new(masts());
    for step in [4, 5, 63, 64, 255] {
        let unknown = entry(0, step, 0);
        assert_eq!(job.ask(OPEN, unknown).number, 11, "{step}");
        let folded = job.fold(&written(&[unknown])).expect("a lawful journal");
        assert_eq!((folded[0], &folded[1..]), (1, &[0; 64][..]), "{step}: never");
        assert_eq!(job.fold(&written(&[entry(0, 0, 0), unknown])), Ok(folded), "{step}");
    }
    let mut one = Graph { actions: 1, labels: [0; 64], ..Graph::bare(2, 1, 1) };
    (one.allows[0], one.holds[0]) = (1, 1);
    assert_eq!(Both::new(one).allowed_to_someone(Marking::new(0, 0, 0b11)), Allowed { number: 0, steps: 0b11 });
}

#[test]
fn actions_that_no_step_has() {
    let mut many = sample::graph();
    (many.actions, many.allows[3], many.allows[63]) = (64, 0b11, 0b01);
    let job = Both::new(many.clone());
    assert_eq!((job.check(), job.ask(sample::START, sample::REBOOT).number), (0, 0));
    many.labels[0] = 63;
    let job = Both::new(many);
    assert_eq!(job.check(), 0, "the last of 64");
    assert_eq!(job.ask(sample::START, sample::REBOOT).number, 0);
    assert_eq!(job.ask(sample::START, entry(1, 0, 1)).number, 13, "no longer the desk's");
    let one = Graph { actions: 1, labels: [0; 64], allows: [0; 64], ..sample::graph() };
    assert_eq!(Both::new(one).check(), 0, "fewer than steps");
}

#[test]
fn counts_of_actions() {
    for (actions, number) in [(0, 2), (1, 4), (2, 4), (3, 0), (4, 0), (64, 0), (65, 2), (256 + 3, 2), (u64::MAX, 2)] {
        assert_eq!(Both::new(Graph { actions, ..sample::graph() }).check(), number, "{actions}");
    }
}

/// In every row, so that none is left out where several are looked at together.
#[test]
fn labels_beyond_the_actions() {
    for actions in [1, 2, 3, 40, 63, 64] {
        let whole = Graph { actions, labels: [actions - 1; 64], ..Graph::bare(64, 1, 1) };
        assert_eq!(Both::new(whole.clone()).check(), 0, "{actions}");
        for step in 0..64 {
            for label in [actions, actions + 1, 64, 255, 256, 1 << 32, 1 << 63, (1 << 63) - 1, (1 << 63) + 1, u64::MAX]
            {
                let mut g = whole.clone();
                g.labels[step] = label;
                assert_eq!(Both::new(g).check(), 4, "action {label} of {actions} for step {step}");
            }
        }
    }
}

#[test]
fn labels_of_no_step() {
    for row in 3..64 {
        for label in [1, 2, 3, 255, 256, 1 << 32, 1 << 63, u64::MAX] {
            let mut g = sample::graph();
            g.labels[row] = label;
            assert_eq!(Both::new(g).check(), 4, "action {label} in row {row}");
        }
    }
    let mut g = sample::graph();
    g.steps = 2;
    (g.conditions[2], g.includes[1], g.excludes[0]) = (0, 0, 0);
    assert_eq!(Both::new(g.clone()).check(), 4, "a step less, and still its action");
    g.labels[2] = 0;
    assert_eq!(Both::new(g).check(), 0, "its role set stays: an action that no step has");
}

#[test]
fn role_sets_of_no_action() {
    for row in 3..64 {
        let mut g = Graph { actions: 3, ..Graph::bare(3, 2, 2) };
        g.allows[row] = 1;
        assert_eq!(Both::new(g.clone()).check(), 4, "row {row}");
        g.actions = row as u64 + 1;
        assert_eq!(Both::new(g.clone()).check(), 0, "row {row}");
        g.allows[row] = 0b100;
        assert_eq!(Both::new(g).check(), 4, "a role beyond in row {row}");
    }
}

/// What is wrong with the actions has its place among the other numbers, in every call that takes a graph.
#[test]
fn the_order_of_the_numbers() {
    let [mut counts, mut label, mut both] = [(); 3].map(|()| masts());
    (counts.actions, counts.labels[0]) = (65, 65);
    (label.labels[0], label.includes[0], label.excludes[0]) = (4, 1, 1);
    (both.includes[0], both.excludes[0]) = (1, 1);
    let beyond = Marking { due: 1 << 4, ..OPEN };
    for (graph, number) in [(counts, 2), (label, 4), (both, 6), (masts(), 8)] {
        let job = Both::new(graph);
        assert_eq!(job.take(beyond, entry(9, 9, 9)).number, number);
        assert_eq!(job.allowed_to(beyond, 9).number, number);
        assert_eq!(job.allowed_to_someone(beyond).number, number);
        assert_eq!(job.finished(beyond).number, number);
        assert_eq!(job.run(beyond, &[]).number, number);
        assert_eq!(job.fold(&[]).err().unwrap_or(8), number);
        assert_eq!(job.restore(&[], &[], beyond).number, number);
        assert_eq!(job.lap(beyond, &[], &[]).number, number);
        assert_eq!(job.track_start(beyond).number, number);
    }
}
