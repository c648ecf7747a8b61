//! Two records for a stated number of steps, from a journal or not, well-formed or not; a marking that the first often applies
//! to; a record and room for writing.

use super::{graphs::first, markings, spoil, Density, Dice};
use crate::data::{Bytes, Marking, Record};

#[derive(Clone, Debug)]
pub struct Records {
    pub n: u64,
    pub first: Bytes,
    pub second: Bytes,
    pub marking: Marking,
    pub record: Record,
    pub room: Bytes,
}

pub fn make(dice: &mut Dice) -> Records {
    let steps = if dice.one_in(3) { 1 + dice.below(3) } else { dice.between(1, 65) } as u64;
    let (a, mut b) = (record(dice, steps), record(dice, steps));
    if dice.one_in(2) {
        // Then the second does not ask for a step that the first has excluded, which would join to never.
        b.need_in &= !a.in_clear;
    }
    let mut marking = markings::inside(dice, steps);
    if dice.one_in(2) {
        bend(dice, &a, &mut marking);
    }
    if dice.one_in(12) {
        markings::name_beyond(dice, steps, &mut marking);
    }
    let n = if dice.one_in(16) { unlawful(dice, steps) } else { steps };
    let mut other = if dice.one_in(2) { a } else { record(dice, steps) };
    if dice.one_in(4) {
        spoil::record(dice, steps, &mut other);
    }
    let [first, second] = [a, b].map(|record| Bytes(bytes(dice, steps, record)));
    Records { n, first, second, marking, record: other, room: room(dice) }
}

fn unlawful(dice: &mut Dice, steps: u64) -> u64 {
    let round = dice.come_round(steps);
    dice.pick(&[0, 65, 66, 128, 255, 256, round, round, u64::MAX])
}

/// The bytes of a record; one in six is damaged, as a record or as bytes.
pub fn bytes(dice: &mut Dice, steps: u64, mut record: Record) -> Vec<u8> {
    let harm = dice.below(12);
    if harm == 0 {
        spoil::record(dice, steps, &mut record);
    }
    let [never, sets @ ..] = record.words();
    let sets = sets.iter().flat_map(|set| set.to_le_bytes());
    let mut bytes: Vec<u8> = std::iter::once(never as u8).chain(sets).collect();
    if harm == 1 {
        spoil::bytes(dice, &mut bytes);
    }
    bytes
}

/// A well-formed record: never, the identity, or any sets that do not clash.
pub fn record(dice: &mut Dice, steps: u64) -> Record {
    match dice.below(16) {
        0 => return Record { never: 1, ..Record::default() },
        1 => return Record::default(),
        _ => {}
    }
    let all = first(steps);
    let mut set = || {
        let density = dice.pick(&[Density::Empty, Density::Sparse, Density::Thin, Density::Thin, Density::Half]);
        dice.set(density) & all
    };
    let (need_in, need_ex) = (set(), set());
    let (need_out_or_ex, done) = (set() & !(need_in | need_ex), set() & !need_ex);
    let (due_set, due_clear, in_set, in_clear) = (set(), set(), set() & !need_in, set());
    let (due_clear, in_clear) = (due_clear & !due_set, in_clear & !in_set);
    Record { never: 0, need_in, need_ex, need_out_or_ex, done, due_set, due_clear, in_set, in_clear }
}

/// Bends the marking so that the record, if it is not never, applies to it, or fails at a single step.
fn bend(dice: &mut Dice, &Record { need_in, need_ex, need_out_or_ex, .. }: &Record, m: &mut Marking) {
    m.included |= need_in;
    m.done |= need_ex;
    let waiting = need_out_or_ex & m.included & !m.done;
    let excluded = waiting & dice.word();
    m.included &= !excluded;
    m.done |= waiting & !excluded;
    if dice.one_in(4) {
        let step = dice.member(need_in | need_ex | need_out_or_ex).map_or(0, |step| 1 << step);
        m.included ^= step & dice.pick(&[0, u64::MAX]);
        m.done ^= step;
    }
}

/// Room for 65 bytes, most often, with something in it already.
fn room(dice: &mut Dice) -> Bytes {
    let length = dice.pick(&[0, 1, 64, 65, 65, 65, 66, 100]);
    Bytes((0..length).map(|_| dice.word() as u8).collect())
}
