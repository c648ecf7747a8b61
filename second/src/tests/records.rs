use super::{alike, answers, crowd, filled, ran, written, Both};
use crate::cases::{folds, records, Dice};
use crate::data::{Entry, Marking, Moved, Ran, Record};
use crate::sample::{self, CHECK, PUBLISH, REBOOT, REBOOTED, START};
use crate::{cases, model, peer};
use std::collections::BTreeSet;

fn both_join(n: u64, a: &[u8], b: &[u8]) -> Result<[u8; 65], u64> {
    filled(model::record::join(n, a, b), |out| peer::record::join(n, a, b, out))
}

fn both_apply(n: u64, record: &[u8], m: Marking) -> Moved {
    alike(model::record::apply(n, record, m), peer::record::apply(n, record, m))
}

/// The marking after, if the record applies.
fn applied(n: u64, record: &[u8], m: Marking) -> Option<Marking> {
    let moved = both_apply(n, record, m);
    (moved.number == 0).then_some(moved.marking)
}

fn folded(entries: &[Entry]) -> Record {
    let record = Both::new(sample::graph()).fold(&written(entries)).expect("a lawful journal");
    model::record::read(3, &record).expect("well-formed")
}

#[test]
fn samples_8_to_11() {
    let none = Record::default();
    let reboot = Record { need_in: 0b001, done: 0b001, due_set: 0b010, due_clear: 0b001, in_clear: 0b100, ..none };
    let both = Record { need_in: 0b011, done: 0b011, due_clear: 0b011, in_set: 0b100, ..none };
    let publish = Record { need_in: 0b100, need_out_or_ex: 0b010, done: 0b100, due_clear: 0b100, ..none };
    assert_eq!(folded(&[]), none, "the identity");
    assert_eq!(folded(&[REBOOT]), reboot, "S8");
    assert_eq!(folded(&[REBOOT, CHECK]), both, "S9");
    assert_eq!(folded(&[PUBLISH]), publish, "S10");
    assert_eq!(folded(&[REBOOT, PUBLISH]), Record { never: 1, ..none }, "S11");
}

#[test]
fn needed_in_and_out_or_done_is_needed_in_and_done() {
    // Publishing asks for a check that is out or done, and the check then for one that is in: its Done falls away.
    let right = Record { need_in: 0b110, need_ex: 0b010, done: 0b100, due_clear: 0b110, ..Record::default() };
    assert_eq!(folded(&[PUBLISH, CHECK]), right);
}

#[test]
fn a_record_restores_what_its_journal_did() {
    let job = Both::new(sample::graph());
    let record = job.fold(&written(&[REBOOT])).expect("a lawful journal");
    let whole = job.run(START, &written(&[REBOOT, CHECK, PUBLISH]));
    assert_eq!(job.restore(&record, &written(&[CHECK, PUBLISH]), START), ran(2, whole.marking));
    let refused = Ran { number: 14, marking: REBOOTED, ..Ran::default() };
    assert_eq!(job.restore(&record, &written(&[PUBLISH]), START), refused, "the marking before the entry");
    let handed_in = Marking { done: 1, ..Marking::default() };
    let refused = Ran { number: 16, marking: handed_in, ..Ran::default() };
    assert_eq!(job.restore(&record, &[], handed_in), refused, "what was handed in");
}

#[test]
fn one_record_for_what_is_done() {
    for case in 0..2_000 {
        let dice = &mut Dice::new(9, case);
        let n = 1 + dice.below(64) as u64;
        let [a, b] = [(); 2].map(|()| model::record::write(n, &records::record(dice, n), 65).expect("well-formed"));
        let identity = [0; 65];
        assert_eq!(both_join(n, &a, &identity), Ok(a));
        assert_eq!(both_join(n, &identity, &a), Ok(a));
        let twice = both_join(n, &a, &a).expect("well-formed");
        assert_eq!(both_join(n, &twice, &a), Ok(twice), "three copies are two");
        let joined = both_join(n, &a, &b).expect("well-formed");
        let marking = cases::inside(dice, n);
        let in_turn = applied(n, &a, marking).and_then(|middle| applied(n, &b, middle));
        assert_eq!(applied(n, &joined, marking), in_turn);
    }
}

#[test]
fn the_bodies_agree_and_every_number_comes_up() {
    let mut came = BTreeSet::new();
    for case in 0..4_000 {
        let records::Records { n, first, second, marking, .. } = records::make(&mut Dice::new(9, case));
        came.insert(("join", both_join(n, &first, &second).err().unwrap_or(0)));
        came.insert(("apply", both_apply(n, &first, marking).number));
        let folds::Fold { graph, marking, journal, record, .. } = folds::make(&mut Dice::new(9, case));
        let job = Both::new(graph);
        came.insert(("fold", job.fold(&journal).err().unwrap_or(0)));
        let restored = job.restore(&record, &journal, marking);
        came.extend([("restore", restored.number), ("waits", crowd(restored.waiting))]);
    }
    let mut all = answers("join", &[0, 2, 10]);
    all.append(&mut answers("apply", &[0, 2, 8, 10, 16]));
    all.append(&mut answers("fold", &[0, 2, 4, 6, 7]));
    all.append(&mut answers("restore", &[0, 2, 4, 6, 7, 8, 10, 16, 11, 12, 13, 14, 15]));
    all.append(&mut answers("waits", &[0, 1, 2, 63]));
    assert_eq!(came, all);
}
