//! Records that are not well-formed.

use super::Dice;
use crate::data::Record;

/// The pairs of sets that have no step in common, by their places in the words.
const APART: [(usize, usize); 6] = [(1, 3), (2, 3), (4, 2), (7, 1), (7, 8), (5, 6)];

/// A step in two sets, a step beyond the count where there is room for one, never beside a set, or a never that is neither 0 nor
/// 1, also one that is so in its lowest byte.
pub fn record(dice: &mut Dice, steps: u64, record: &mut Record) {
    let mut words = record.words();
    let step = 1 << dice.between(0, steps as usize);
    match dice.below(4) {
        0 => {
            let (one, other) = dice.pick(&APART);
            words[0] = 0;
            words[one] |= step;
            words[other] |= step;
        }
        1 if steps < 64 => words[1 + dice.below(8)] |= 1 << dice.between(steps as usize, 64),
        2 => {
            words[0] = 1;
            words[1 + dice.below(8)] |= step;
        }
        _ => words[0] = dice.pick(&[2, 3, 255, 256, 257, 1 << 32, u64::MAX]),
    }
    *record = Record::new(words);
}

/// Too few or too many bytes, another never, or bytes that say nothing.
pub fn bytes(dice: &mut Dice, bytes: &mut Vec<u8>) {
    match dice.below(4) {
        0 => bytes.truncate(dice.pick(&[0, 1, 63, 64])),
        1 => bytes.resize(dice.pick(&[66, 67, 130]), 0),
        2 => bytes[0] = dice.pick(&[2, 3, 128, 255]),
        _ => bytes.fill_with(|| dice.word() as u8),
    }
}
