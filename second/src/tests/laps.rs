use super::{answers, crowd, written, Both};
use crate::cases::{laps, Dice};
use crate::data::{Graph, Lapped, Marking, ACCEPTED, STARVED};
use crate::sample::{self, CHECK, PUBLISH, REBOOT, START};
use std::collections::BTreeSet;

const ALL_FED: Lapped = Lapped { number: 0, waiting: 0, verdict: ACCEPTED, step: 0, index: 0, pass: 0 };
const STEP_1_STARVED: Lapped = Lapped { verdict: STARVED, step: 1, ..ALL_FED };

fn refused(number: u64, index: u64, pass: u64) -> Lapped {
    Lapped { number, index, pass, ..Lapped::default() }
}

#[test]
fn sample_12() {
    let job = Both::new(sample::graph());
    let lap = |stem: &[_], lap: &[_]| job.lap(START, &written(stem), &written(lap));
    assert_eq!(lap(&[], &[REBOOT]), STEP_1_STARVED);
    assert_eq!(lap(&[], &[REBOOT, CHECK]), ALL_FED);
    assert_eq!(lap(&[REBOOT], &[CHECK, REBOOT]), ALL_FED, "due at the end of each lap");
}

#[test]
fn refused_by_pass() {
    let job = Both::new(sample::graph());
    let late = written(&[REBOOT, PUBLISH]);
    assert_eq!(job.lap(START, &late, &written(&[REBOOT])), refused(14, 1, 0), "in the stem");
    assert_eq!(job.lap(START, &[], &late), refused(14, 1, 1), "in the first lap");
    let publish_then_reboot = written(&[PUBLISH, REBOOT]);
    assert_eq!(job.lap(START, &written(&[CHECK]), &publish_then_reboot), refused(14, 0, 2), "in the second");
    let waits = Lapped { waiting: 0b010, ..refused(15, 0, 1) };
    assert_eq!(job.lap(START, &[], &publish_then_reboot), waits, "with what is waited for");
    assert_eq!(job.lap(START, &late, &[]), refused(17, 0, 0), "an empty lap comes before any entry");
    assert_eq!(job.lap(START, &late, &[0]), refused(7, 0, 0));
}

#[test]
fn a_step_that_excludes_itself_passes_once() {
    let mut g = Graph::bare(1, 1, 1);
    (g.allows[0], g.holds[0], g.excludes[0]) = (1, 1, 1);
    assert_eq!(Both::new(g).lap(Marking::new(0, 0, 1), &[], &[0, 0, 0]), refused(14, 0, 2));
}

#[test]
fn seen_not_included_is_enough() {
    // Step 0 makes 1 due and excludes it, and step 2 includes it again: it is due for ever, and left out now and then.
    let mut g = Graph::bare(3, 1, 1);
    g.allows[..3].fill(1);
    g.holds[0] = 1;
    (g.responses[0], g.excludes[0], g.includes[2]) = (2, 2, 2);
    let job = Both::new(g);
    let all = Marking::new(0, 0, 0b111);
    assert_eq!(job.lap(all, &[], &[0, 0, 0, 0, 2, 0]), ALL_FED, "left out at the start of each lap");
    assert_eq!(job.lap(all, &[0, 0, 0, 0, 2, 0], &[0, 2, 0]), STEP_1_STARVED, "left out in the stem alone");
}

#[test]
fn the_bodies_agree_and_every_number_comes_up() {
    let mut came = BTreeSet::new();
    for case in 0..3_000 {
        let laps::Lap { graph, marking, stem, lap } = laps::make(&mut Dice::new(11, case));
        let Lapped { number, waiting, verdict, pass, .. } = Both::new(graph).lap(marking, &stem, &lap);
        came.extend([("number", number), ("verdict", verdict), ("pass", pass)]);
        came.insert((["waits, stem", "waits, first", "waits, second"][pass as usize], crowd(waiting)));
    }
    let mut all = answers("number", &[0, 2, 4, 6, 7, 8, 17, 11, 12, 13, 14, 15]);
    all.append(&mut answers("verdict", &[0, ACCEPTED, STARVED]));
    for pass in ["waits, stem", "waits, first", "waits, second"] {
        all.append(&mut answers(pass, &[0, 1, 2, 63]));
    }
    // A lap that is allowed twice is allowed for ever.
    all.append(&mut answers("pass", &[0, 1, 2]));
    assert_eq!(came, all);
}
