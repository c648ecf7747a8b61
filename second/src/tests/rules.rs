use super::{answers, crowd, Both};
use crate::cases::{self, Case, Dice};
use crate::data::{Asked, Entry, Graph, Marking, Moved};
use crate::model::members;
use crate::sample::{self, CHECK, CHECKED, PUBLISH, REBOOT, REBOOTED, START};
use std::collections::BTreeSet;

const fn moved(marking: Marking) -> Moved {
    Moved { number: 0, waiting: 0, marking }
}

const fn refused(number: u64, marking: Marking) -> Moved {
    Moved { number, waiting: 0, marking }
}

/// Refused with 15: these steps are waited for.
const fn waits(waiting: u64, marking: Marking) -> Moved {
    Moved { number: 15, waiting, marking }
}

#[test]
fn samples_1_to_7() {
    let job = Both::new(sample::graph());
    let entry = |person, step, role| Entry { person, step, role };
    assert_eq!(job.check(), 0);
    assert_eq!(job.take(START, PUBLISH), waits(0b010, START), "S1");
    assert_eq!(job.take(START, REBOOT), moved(REBOOTED), "S2");
    assert_eq!(job.finished(REBOOTED).finished, 0, "S2");
    assert_eq!(job.take(REBOOTED, PUBLISH), refused(14, REBOOTED), "S3");
    assert_eq!(job.take(REBOOTED, CHECK), moved(CHECKED), "S4");
    assert_eq!(job.finished(CHECKED).finished, 1, "S4");
    assert_eq!(job.take(START, entry(1, 1, 1)), refused(13, START), "S5");
    assert_eq!(job.take(START, entry(1, 1, 0)), refused(12, START), "S6");
    assert_eq!(job.take(START, entry(2, 0, 0)), refused(11, START), "S7");
}

/// What is asked is the marking before: the answer to a step that was just taken is that of the marking after.
#[test]
fn asking_takes_nothing() {
    let job = Both::new(sample::graph());
    let allowed = Asked::default();
    assert_eq!([job.ask(START, REBOOT), job.ask(START, REBOOT), job.ask(START, CHECK)], [allowed; 3]);
    let refused = |number, waiting| Asked { number, waiting };
    assert_eq!((job.ask(START, PUBLISH), job.ask(REBOOTED, PUBLISH)), (refused(15, 0b010), refused(14, 0)));
    assert_eq!(job.ask(CHECKED, PUBLISH), allowed);
    // It lets itself in, and what it waits for out: after the move it would be allowed, and before it is not.
    let (mut g, mut shut) = (lone(), lone());
    (g.conditions[0], g.excludes[0], shut.includes[0]) = (1, 1, 1);
    assert_eq!(Both::new(g).ask(Marking::new(0, 0, 1), LONE), refused(15, 1));
    assert_eq!(Both::new(shut).ask(Marking::default(), LONE), refused(14, 0));
}

#[test]
fn below_11_there_are_zeros() {
    let job = Both::new(sample::graph());
    let beyond = Marking { due: 1 << 3, ..START };
    assert_eq!(job.take(beyond, REBOOT), refused(8, Marking::default()));
}

/// One step, one person, one role that both have.
fn lone() -> Graph {
    let mut g = Graph::bare(1, 1, 1);
    g.allows[0] = 1;
    g.holds[0] = 1;
    g
}

const LONE: Entry = Entry { person: 0, step: 0, role: 0 };

#[test]
fn its_own_response_stays_due() {
    let mut g = lone();
    g.responses[0] = 1;
    assert_eq!(Both::new(g).take(Marking::new(0, 0, 1), LONE), moved(Marking::new(1, 1, 1)));
}

#[test]
fn due_is_kept_when_excluded() {
    let mut g = sample::graph();
    g.excludes[0] |= 1 << 1;
    let job = Both::new(g);
    let after = Marking::new(0b001, 0b010, 0b001);
    assert_eq!(job.take(START, REBOOT), moved(after));
    assert_eq!(job.finished(after).finished, 1);
}

#[test]
fn conditions_are_read_before_the_move() {
    let (mut g, open) = (lone(), Marking::new(0, 0, 1));
    g.conditions[0] = 1;
    assert_eq!(Both::new(g.clone()).take(open, LONE), waits(1, open), "waits for itself");
    g.excludes[0] = 1;
    assert_eq!(Both::new(g).take(Marking::new(1, 0, 1), LONE), moved(Marking::new(1, 0, 0)), "excludes itself");
}

#[test]
fn every_step_that_is_waited_for() {
    let mut g = Graph::bare(64, 1, 1);
    (g.allows[5], g.holds[0], g.conditions[5]) = (1, 1, u64::MAX);
    let (job, entry) = (Both::new(g), Entry { person: 0, step: 5, role: 0 });
    let waits_for = |waiting, m| assert_eq!(job.take(m, entry), waits(waiting, m));
    waits_for(u64::MAX, Marking::new(0, 0, u64::MAX));
    waits_for(u64::MAX << 1, Marking::new(1, 1, u64::MAX));
    waits_for(u64::MAX >> 1, Marking::new(0, 0, u64::MAX >> 1));
    waits_for(1 << 63 | 1 << 5, Marking::new(!(1 << 63 | 1 << 5), 0, u64::MAX));
    waits_for(1 << 5, Marking::new(0, 0, 1 << 5));
}

/// Nothing is missing in the set, and nothing is too much.
#[test]
fn what_is_waited_for_opens_the_step() {
    for case in 0..500 {
        let Case { graph, marking, entry } = cases::make(&mut Dice::new(14, case));
        let job = Both::new(graph);
        let moved = job.take(marking, entry);
        assert_eq!(moved.waiting != 0, moved.number == 15);
        for step in members(moved.waiting) {
            let but_one = Marking { done: marking.done | moved.waiting & !(1 << step), ..marking };
            assert_eq!(job.take(but_one, entry), waits(1 << step, but_one));
            assert_eq!(job.take(Marking { done: but_one.done | 1 << step, ..marking }, entry).number, 0);
        }
    }
}

#[test]
fn the_bodies_agree_and_every_number_comes_up() {
    let mut came = BTreeSet::new();
    for case in 0..1_000 {
        let Case { graph, marking, entry } = cases::make(&mut Dice::new(7, case));
        let job = Both::new(graph);
        came.insert(("check", job.check()));
        let moved = job.take(marking, entry);
        came.extend([("take", moved.number), ("waits", crowd(moved.waiting))]);
        came.insert(("ask", job.ask(marking, entry).number));
        came.insert(("finished", job.finished(marking).number));
        came.insert(("finished?", job.finished(marking).finished));
    }
    let mut all = answers("check", &[0, 2, 4, 6]);
    all.append(&mut answers("take", &[0, 2, 4, 6, 8, 11, 12, 13, 14, 15]));
    all.append(&mut answers("ask", &[0, 2, 4, 6, 8, 11, 12, 13, 14, 15]));
    all.append(&mut answers("waits", &[0, 1, 2, 63]));
    all.append(&mut answers("finished", &[0, 2, 4, 6, 8]));
    all.append(&mut answers("finished?", &[0, 1]));
    assert_eq!(came, all);
}
