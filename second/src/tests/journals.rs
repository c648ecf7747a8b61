use super::{answers, crowd, ran, written, Both};
use crate::cases::{journals, Dice};
use crate::data::{Entry, Marking, Ran, Walked};
use crate::sample::{self, CHECK, CHECKED, PUBLISH, REBOOT, REBOOTED, START};
use crate::{model, peer};
use std::collections::BTreeSet;

#[test]
fn samples_1_to_4_as_journals() {
    let job = Both::new(sample::graph());
    let run = |entries: &[Entry]| job.run(START, &written(entries));
    assert_eq!(run(&[]), ran(0, START));
    assert_eq!(run(&[PUBLISH]), Ran { number: 15, waiting: 0b010, entries: 0, marking: START }, "S1");
    assert_eq!(run(&[REBOOT]), ran(1, REBOOTED), "S2");
    assert_eq!(run(&[REBOOT, PUBLISH, CHECK]), Ran { number: 14, waiting: 0, entries: 1, marking: REBOOTED }, "S3");
    assert_eq!(run(&[REBOOT, CHECK]), ran(2, CHECKED), "S4");
}

/// Of what is done, excluded and included since the start.
#[test]
fn a_run_waits_by_the_marking_before_the_entry() {
    let mut g = sample::graph();
    g.conditions[2] = 0b111;
    (g.includes[1], g.excludes[1]) = (0b100, 0b001);
    let job = Both::new(g);
    let run = |start, entries: &[Entry]| job.run(start, &written(entries));
    assert_eq!(run(START, &[PUBLISH]), Ran { number: 15, waiting: 0b111, entries: 0, marking: START });
    let waits = Ran { number: 15, waiting: 0b100, entries: 1, marking: Marking::new(0b010, 0, 0b110) };
    assert_eq!(run(START, &[CHECK, PUBLISH]), waits, "0 is excluded, 1 is done");
    assert_eq!(run(Marking::new(0, 0, 0b010), &[CHECK, PUBLISH]), waits, "2 is included");
}

#[test]
fn bad_lengths() {
    let job = Both::new(sample::graph());
    for length in [1, 2, 4, 65_534, 65_536, 65_538] {
        let journal = vec![0; length];
        assert_eq!(job.run(START, &journal), Ran { number: 7, ..Ran::default() }, "{length} bytes");
        let refused = Walked { number: 7, ..Walked::default() };
        assert_eq!([model::Walk::new(&journal).at(0), peer::walk(&journal, 0)], [refused; 2], "{length} bytes");
    }
    assert_eq!(job.run(START, &[0; 65_535]).entries, 21_845, "rebooting without end");
}

#[test]
fn a_walk_hands_out_each_entry_and_stays_at_the_end() {
    let journal = written(&[REBOOT, PUBLISH]);
    let [first, second] = [REBOOT, PUBLISH].map(|entry| Walked { number: 0, ended: 0, entry });
    let end = Walked { ended: 1, ..Walked::default() };
    let mut walk = model::Walk::new(&journal);
    assert_eq!([(); 4].map(|()| walk.hand_out()), [first, second, end, end]);
    // Three times the last place comes round.
    let places = [0, 1, 2, 3, u64::MAX / 3 + 1];
    assert_eq!(places.map(|place| walk.at(place)), [first, second, end, end, end]);
    assert_eq!(places.map(|place| peer::walk(&journal, place)), [first, second, end, end, end]);
}

#[test]
fn the_bodies_agree_and_every_number_comes_up() {
    let mut came = BTreeSet::new();
    for case in 0..2_000 {
        let case = journals::make(&mut Dice::new(8, case));
        let Ran { number, waiting, entries, .. } = Both::new(case.graph).run(case.marking, &case.journal);
        let at = if entries == 0 { "waits at once" } else { "waits later" };
        came.extend([("run", number), (at, crowd(waiting))]);
    }
    let mut all = answers("run", &[0, 2, 4, 6, 7, 8, 11, 12, 13, 14, 15]);
    all.append(&mut answers("waits at once", &[0, 1, 2, 63]));
    all.append(&mut answers("waits later", &[0, 1, 2, 63]));
    assert_eq!(came, all);
}
