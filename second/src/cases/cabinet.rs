//! Numbers of arms, lawful and not, with rooms of every length; and journals of the cabinet's job.

use super::{journals, walks::push, Dice};
use crate::data::{Bytes, Entry};
use crate::{model, peer};

#[derive(Clone, Debug)]
pub struct Cabinet {
    pub arms: u64,
    /// Room for the sheet, and what is in it before.
    pub room: Bytes,
    /// The arms of a mast that there is: the same where those are lawful.
    pub mast: u64,
    /// Of its job, from the start on.
    pub journal: Bytes,
    /// How many entries of its beginning go into a record.
    pub recorded: usize,
}

/// Every other one is the next of all small numbers of arms with all rooms, so that none of them is left out.
pub fn make(dice: &mut Dice) -> Cabinet {
    let (arms, length) = if dice.case().is_multiple_of(2) { in_turn(dice.case() / 2) } else { any(dice) };
    let entries = journals::length(dice);
    of(dice, arms, length, entries)
}

/// With a journal of full length.
pub fn full(dice: &mut Dice) -> Cabinet {
    let (arms, length) = any(dice);
    of(dice, arms, length, journals::FULL)
}

fn of(dice: &mut Dice, arms: u64, length: usize, entries: usize) -> Cabinet {
    let bytes = std::iter::repeat_with(|| dice.word().to_le_bytes()).flatten().take(length).collect();
    let mast = if (2..=16).contains(&arms) { arms } else { some_arms(dice) };
    let journal = journal(dice, mast, entries);
    Cabinet { arms, room: Bytes(bytes), mast, journal: Bytes(journal), recorded: dice.below(entries + 1) }
}

fn some_arms(dice: &mut Dice) -> u64 {
    dice.between(2, 17) as u64
}

/// As long as the sheet is, or would be if there could be so many arms.
fn needed(arms: u64) -> usize {
    72 + 15 * arms as usize
}

/// The rooms for so many arms: from none at all to some bytes more than are needed.
fn rooms(arms: u64) -> impl Iterator<Item = (u64, usize)> {
    (0..=needed(arms) + 8).map(move |length| (arms, length))
}

/// Lawful arms with every room, then others with rooms that would be just enough or are not, then again from the first on.
fn in_turn(turn: u64) -> (u64, usize) {
    let others = (0..=40).filter(|arms| !(2..=16).contains(arms)).flat_map(|arms| {
        let lengths = [0, 1, needed(2) - 1, needed(16), needed(arms).saturating_sub(1), needed(arms)];
        lengths.map(|length| (arms, length))
    });
    let all: Vec<_> = (2..=16).flat_map(rooms).chain(others).collect();
    all[turn as usize % all.len()]
}

fn any(dice: &mut Dice) -> (u64, usize) {
    let arms = any_arms(dice);
    let needed = needed(if arms <= 40 { arms } else { some_arms(dice) });
    let length = match dice.below(8) {
        0 => 0,
        1 => dice.below(needed + 1),
        2 | 3 => needed - 1,
        4 => needed + 1 + dice.below(100),
        _ => needed,
    };
    (arms, length)
}

/// A third is lawful. The others are near to that, or would be lawful in their lowest bits, or are as large as can be, also
/// so large that the bytes of their sheet come round to few.
fn any_arms(dice: &mut Dice) -> u64 {
    let (arms, little) = (some_arms(dice), dice.below(20) as u64);
    match dice.below(9) {
        0..3 => arms,
        3 => dice.pick(&[0, 1, 17, 18]),
        4 => dice.below(41) as u64,
        5 => dice.come_round(arms),
        6 => dice.pick(&[1 << 31, 1 << 32, 1 << 63, u64::MAX - 19]).wrapping_add(little),
        7 => (u64::MAX / 15).wrapping_mul(dice.pick(&[1, 2, 7, 14])).wrapping_add(little),
        _ => dice.any_size(),
    }
}

/// At times a reboot, more often or less, and mostly another step that may be taken, whichever those are: a job in which more
/// is open than should be is gone through all the same. Half of them have one entry somewhere that most often is refused there.
pub fn journal(dice: &mut Dice, arms: u64, entries: usize) -> Vec<u8> {
    let (graph, start) = model::cabinet::job(arms);
    let (graph, mut at) = (graph.write(), start.write());
    let (publish, seldom) = (arms as u8 + 1, dice.pick(&[2, 8, 24, 100]));
    let wrong = dice.one_in(2).then(|| dice.between(0, entries.max(1)));
    let mut journal = Vec::new();
    for place in 0..entries {
        let next = dice.member(peer::allowed_to_someone(&graph, at).steps & !1);
        let entry = match next {
            _ if wrong == Some(place) => refused(dice, publish, next.unwrap_or(1)),
            Some(step) if !dice.one_in(seldom) => taken(publish, step),
            _ => by(dice.below(2) as u8, 0),
        };
        peer::keep(&graph, &mut at, entry);
        push(&mut journal, entry);
    }
    journal
}

/// The role that a person holds has the same number.
fn by(person: u8, step: u8) -> Entry {
    Entry { person, step, role: person }
}

fn taken(publish: u8, step: u8) -> Entry {
    by(u8::from(step == publish), step)
}

/// Somebody or something unknown, a role that the person does not hold or the step does not have, a step that is not open
/// where this one is, or any entry at all.
fn refused(dice: &mut Dice, publish: u8, next: u8) -> Entry {
    let right = taken(publish, next);
    let beyond = |dice: &mut Dice, count: u8| dice.between(count.into(), 256) as u8;
    match dice.below(7) {
        0 => Entry { person: beyond(dice, 2), ..right },
        1 => Entry { step: beyond(dice, publish + 1), ..right },
        2 => Entry { role: beyond(dice, 2), ..right },
        3 => Entry { person: 1 - right.person, ..right },
        4 => by(1 - right.person, next),
        5 => {
            // One of the others, before it or behind it.
            let step = 1 + dice.below(usize::from(publish) - 1) as u8;
            taken(publish, if step < next { step } else { step + 1 })
        }
        _ => {
            let [person, step, role] = [3, usize::from(publish) + 2, 3].map(|count| dice.below(count) as u8);
            Entry { person, step, role }
        }
    }
}
