//! The sheet of the cabinet's job, and journals of that job.

use super::{answers, written, Both};
use crate::cases::{cabinet, Dice};
use crate::data::{Bytes, Entry, Graph, Marking, Ran, Written};
use crate::model::cabinet::{all_checked, in_order, job};
use crate::{model, peer};
use std::collections::BTreeSet;

/// As docs/FORMATS.md has a sheet laid out: a reboot, two checks and publishing, 102 bytes.
const TWO_ARMS: [u8; 102] = [
    0x06, // bodies
    0x01, 0x1f, 0x00, 0x04, 0x00, // counts
    0x02, 0x23, 0x00, 0x18, 0x00, // first marking
    0x03, 0x3b, 0x00, 0x08, 0x00, // role sets of actions
    0x04, 0x43, 0x00, 0x04, 0x00, // role sets of people
    0x05, 0x47, 0x00, 0x1b, 0x00, // arrows
    0x06, 0x62, 0x00, 0x04, 0x00, // actions of steps
    0x04, 0x02, 0x02, 0x04, // steps, people, roles, actions
    0x00, 0x00, 0x00, 0x00, 0x00, 0x00, 0x00, 0x00, // Ex
    0x06, 0x00, 0x00, 0x00, 0x00, 0x00, 0x00, 0x00, // Re {1, 2}
    0x03, 0x00, 0x00, 0x00, 0x00, 0x00, 0x00, 0x00, // In {0, 1}
    0x03, 0x00, 0x01, 0x00, 0x01, 0x00, 0x02, 0x00, // either, climber, climber, desk
    0x01, 0x00, 0x02, 0x00, // climber, desk
    0x01, 0x00, 0x01, // the reboot makes both checks due
    0x01, 0x00, 0x02, //
    0x02, 0x00, 0x01, // and includes the first
    0x02, 0x01, 0x02, // which includes the second
    0x02, 0x02, 0x03, // which includes publishing
    0x03, 0x00, 0x02, // the reboot excludes the second check
    0x03, 0x00, 0x03, // and publishing
    0x03, 0x01, 0x01, // each check excludes itself
    0x03, 0x02, 0x02, //
    0x00, 0x01, 0x02, 0x03, // each step is an action of its own
];

/// The sheet or the number, by both, which leave alone what is not written.
fn both(arms: u64, room: &[u8]) -> Result<Vec<u8>, u64> {
    let right = model::cabinet::write(arms, room.len());
    let mut after = Bytes(room.to_vec());
    let written = peer::cabinet(arms, &mut after.0);
    let (number, sheet) = match &right {
        Ok(sheet) => (0, &sheet[..]),
        Err(number) => (*number, &[][..]),
    };
    assert_eq!(written, Written { number, length: sheet.len() as u64 }, "{arms} arms, {} bytes", room.len());
    assert_eq!(after, Bytes([sheet, &room[sheet.len()..]].concat()), "{arms} arms");
    right
}

/// So many bytes, of which no two near to each other are alike.
fn room(length: usize) -> Vec<u8> {
    (0..length).map(|place| place as u8 ^ 0xa5).collect()
}

fn sheet(arms: u64) -> Vec<u8> {
    both(arms, &room(400)).expect("there are such masts")
}

#[test]
fn two_arms_by_hand() {
    assert_eq!(sheet(2), TWO_ARMS);
}

/// Three arms, whose middle check is neither the first nor the last.
#[test]
fn three_arms_by_hand() {
    let (graph, start) = job(3);
    let mut right = Graph::bare(5, 2, 2);
    right.responses[0] = 0b01110;
    right.includes[..4].copy_from_slice(&[0b00010, 0b00100, 0b01000, 0b10000]);
    right.excludes[..4].copy_from_slice(&[0b11100, 0b00010, 0b00100, 0b01000]);
    right.allows[..5].copy_from_slice(&[0b11, 0b01, 0b01, 0b01, 0b10]);
    right.holds[..2].copy_from_slice(&[0b01, 0b10]);
    assert_eq!((graph.write(), start.write()), (right, Marking::new(0, 0b01110, 0b00011)));
}

#[test]
fn lengths_and_arrows() {
    for arms in 2..=16 {
        let (graph, start) = job(arms);
        let arrows =
            [&graph.conditions, &graph.responses, &graph.includes, &graph.excludes].map(|kind| kind.len() as u64);
        assert_eq!(arrows, [0, arms, arms + 1, 2 * arms], "{arms} arms");
        assert_eq!(arrows.iter().sum::<u64>(), 4 * arms + 1, "{arms} arms");
        assert_eq!([graph.steps, graph.people, graph.roles, graph.actions], [arms + 2, 2, 2, arms + 2]);
        let sheet = sheet(arms);
        assert_eq!(sheet.len() as u64, 72 + 15 * arms, "{arms} arms");
        assert_eq!(u64::from(u16::from_le_bytes([sheet[24], sheet[25]])), 3 * (4 * arms + 1), "{arms} arms");
        // By another way: the peer's writer, from the graph; and back again.
        let mut room = vec![0; sheet.len()];
        let (graph, start) = (graph.write(), start.write());
        assert_eq!((peer::check(&graph), peer::sheet::write(&graph, start, &mut room).number), (0, 0));
        assert_eq!(room, sheet, "{arms} arms");
        let (mut read, mut first) = (Graph::bare(0, 0, 0), Marking::default());
        assert_eq!(peer::sheet::read(&sheet, &mut read, &mut first), 0);
        assert_eq!((read, first), (graph, start), "{arms} arms");
    }
}

/// The arms are asked for before the room, whatever that is.
#[test]
fn rooms_of_every_length() {
    for arms in 0..=40 {
        let needed = 72 + 15 * arms as usize;
        for length in 0..=needed + 8 {
            let number = match arms {
                2..=16 if length < needed => 18,
                2..=16 => 0,
                _ => 30,
            };
            assert_eq!(both(arms, &room(length)).err().unwrap_or(0), number, "{arms} arms, {length} bytes");
        }
    }
}

/// Lawful where only the lowest bits are looked at, or so large that the bytes needed come round to few.
#[test]
fn arms_of_any_size() {
    let round = [u64::MAX / 15, u64::MAX / 15 + 1, u64::MAX - 4, (u64::MAX / 15) * 14 + 3];
    let bits = [1 << 8, 1 << 16, 1 << 31, 1 << 32, 1 << 63].map(|bits| bits + 9);
    for arms in round.into_iter().chain(bits).chain([u64::MAX, u64::MAX - 1, 1 << 63]) {
        for length in [0, 57, 72, 102, 312, 400] {
            assert_eq!(both(arms, &room(length)), Err(30), "{arms} arms, {length} bytes");
        }
    }
}

/// What is asked of a journal can be broken.
#[test]
fn orders_that_are_none() {
    for steps in [&[][..], &[1], &[1, 2], &[1, 2, 3], &[1, 2, 3, 3], &[0, 1, 2, 3], &[1, 2, 0, 1, 0, 1, 2, 3, 0]] {
        assert!(in_order(2, steps), "{steps:?}");
    }
    for steps in [
        &[3][..],
        &[1, 3],
        &[2, 3],
        &[2, 1, 3],
        &[1, 1, 2, 3],
        &[1, 2, 1, 3],
        &[1, 2, 3, 1, 3],
        &[1, 2, 0, 3],
        &[1, 0, 2, 3],
        &[1, 2, 3, 0, 1, 3],
    ] {
        assert!(!in_order(2, steps), "{steps:?}");
    }
    for (steps, all) in [
        (&[][..], false),
        (&[1], false),
        (&[2, 3], false),
        (&[1, 2], true),
        (&[2, 1], true),
        (&[1, 2, 3], true),
        (&[1, 2, 0], false),
        (&[1, 0, 2], false),
        (&[0, 1, 2], true),
        (&[0, 1, 0, 1, 1, 2], true),
    ] {
        assert_eq!(all_checked(2, steps), all, "{steps:?}");
    }
}

fn mast(arms: u64) -> (Both, Marking) {
    let (graph, start) = job(arms);
    (Both::new(graph.write()), start.write())
}

/// Every journal of up to so many entries that runs through, by whoever takes them: goes on with each entry that there is.
fn each_way(job: &Both, m: Marking, arms: u64, left: usize, steps: &mut Vec<u64>, seen: &mut [usize; 3]) {
    assert!(in_order(arms, steps), "{steps:?}");
    assert_eq!(job.finished(m).finished == 1, all_checked(arms, steps), "{steps:?}");
    seen[0] += 1;
    seen[1] += usize::from(steps.last() == Some(&(arms + 1)));
    seen[2] += usize::from(all_checked(arms, steps));
    if left == 0 {
        return;
    }
    for step in 0..arms as u8 + 3 {
        let entries = [0, 1, 2].into_iter().flat_map(|person| [0, 1, 2].map(|role| Entry { person, step, role }));
        let taken: BTreeSet<[u64; 3]> = entries
            .map(|entry| job.take(m, entry))
            .filter(|moved| moved.number == 0)
            .map(|moved| [moved.marking.done, moved.marking.due, moved.marking.included])
            .collect();
        for [done, due, included] in taken {
            steps.push(step.into());
            each_way(job, Marking::new(done, due, included), arms, left - 1, steps, seen);
            steps.pop();
        }
    }
}

#[test]
fn every_journal_of_few_entries() {
    for (arms, entries) in [(2, 9), (3, 9), (4, 10)] {
        let (job, start) = mast(arms);
        let mut seen = [0; 3];
        each_way(&job, start, arms, entries, &mut Vec::new(), &mut seen);
        // After each entry there is the reboot, and one other: the next check, or publishing (once more).
        assert_eq!(seen[0], (1 << (entries + 1)) - 1, "{arms} arms");
        assert!(seen[1] > 20 && seen[2] > 20, "{arms} arms: {seen:?}");
    }
}

/// All the way up and published, twice, and again after a reboot halfway. Nobody else may.
#[test]
fn a_day_on_the_mast() {
    let by = |person: u8, step: u8| Entry { person, step, role: person };
    for arms in 2..=16 {
        let (job, start) = mast(arms);
        let publish = arms as u8 + 1;
        let up: Vec<Entry> = (1..publish).map(|arm| by(0, arm)).collect();
        let half = &up[..up.len() / 2];
        let day = [&up[..], &[by(1, publish); 2], &[by(1, 0)], half, &[by(0, 0)], &up, &[by(1, publish)]].concat();
        let ran = job.run(start, &written(&day));
        let included = 1 | 1 << publish;
        let end = Marking::new((1 << (publish + 1)) - 1, 0, included);
        assert_eq!(ran, Ran { entries: day.len() as u64, marking: end, ..Ran::default() }, "{arms} arms");
        assert_eq!(job.run(start, &written(&up)).marking, Marking { done: end.done & !included, ..end });
        assert_eq!(job.finished(end).finished, 1);
        let again = job.take(end, by(0, 0)).marking;
        assert_eq!(again, Marking { done: end.done, ..start }, "{arms} arms");
        assert_eq!(job.finished(again).finished, 0);
        for (m, entry, number) in [
            (start, by(1, publish), 14),
            (start, by(0, 2), 14),
            (end, by(0, 1), 14),
            (start, by(1, 1), 13),
            (end, by(0, publish), 13),
            (start, Entry { role: 0, ..by(1, 1) }, 12),
            (start, by(2, 0), 11),
            (start, by(0, publish + 1), 11),
        ] {
            assert_eq!(job.take(m, entry).number, number, "{arms} arms, {entry:?}");
        }
    }
}

/// Over the journals of the comparison: the model's and the peer's run, what is asked of every journal, and a record of the
/// beginning with the rest.
#[test]
fn journals_of_any_kind() {
    let (mut came, mut published, mut finished) = (BTreeSet::new(), 0, 0);
    for case in 0..4_000 {
        let cabinet::Cabinet { arms, room, mast: lawful, journal, recorded } = cabinet::make(&mut Dice::new(43, case));
        came.insert(("cabinet", both(arms, &room).err().unwrap_or(0)));
        let (job, start) = mast(lawful);
        let ran = job.run(start, &journal);
        let passed: Vec<u64> = journal.chunks(3).map(|entry| entry[1].into()).take(ran.entries as usize).collect();
        assert!(in_order(lawful, &passed), "case {case}");
        assert_eq!(job.finished(ran.marking).finished == 1, all_checked(lawful, &passed), "case {case}");
        came.insert(("run", ran.number));
        published += passed.iter().filter(|step| **step == lawful + 1).count();
        finished += usize::from(ran.number == 0 && all_checked(lawful, &passed));
        let (beginning, rest) = journal.split_at(3 * recorded);
        let restored = job.restore(&job.fold(beginning).expect("a lawful journal"), rest, start);
        let right = match ran.entries.checked_sub(recorded as u64) {
            Some(entries) => Ran { entries, ..ran },
            None => Ran { number: 16, marking: start, ..Ran::default() },
        };
        assert_eq!(restored, right, "case {case}");
        came.insert(("restore", restored.number));
    }
    let mut all = answers("cabinet", &[0, 18, 30]);
    all.append(&mut answers("run", &[0, 11, 12, 13, 14]));
    all.append(&mut answers("restore", &[0, 11, 12, 13, 14, 16]));
    assert_eq!(came, all);
    assert!(published > 1_000 && finished > 500, "{published} publishes, {finished} finished");
}

/// The cases go through all small numbers of arms with every room.
#[test]
fn no_room_is_left_out() {
    let asked: BTreeSet<(u64, usize)> = (0..20_000)
        .map(|case| cabinet::make(&mut Dice::new(1, case)))
        .map(|case| (case.arms, case.room.len()))
        .collect();
    for arms in 2..=16 {
        assert!((0..=72 + 15 * arms as usize + 8).all(|length| asked.contains(&(arms, length))), "{arms} arms");
    }
    assert!((0..=40).all(|arms| asked.iter().any(|(other, _)| *other == arms)));
    assert!(asked.iter().any(|(arms, _)| *arms > 1 << 63));
}
