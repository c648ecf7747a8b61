use super::{out_of_range, sets::well_formed, Record};
use crate::data::Record as Stored;
use crate::model::lowest;

/// The never mark is a byte, and each of the eight sets has 8 of them, the lowest first. Nothing where there are not 65.
fn stored(bytes: &[u8]) -> Option<Stored> {
    let set = |i: usize| (0..8).map(|k| u64::from(bytes[1 + 8 * i + k]) << (8 * k)).sum();
    let words = || [bytes[0].into(), set(0), set(1), set(2), set(3), set(4), set(5), set(6), set(7)];
    (bytes.len() == 65).then(|| Stored::new(words()))
}

fn bytes(stored: &Stored) -> [u8; 65] {
    let [never, sets @ ..] = stored.words();
    let mut bytes = [0; 65];
    bytes[0] = never as u8;
    for (i, set) in sets.iter().enumerate() {
        for k in 0..8 {
            bytes[1 + 8 * i + k] = (set >> (8 * k) & 0xff) as u8;
        }
    }
    bytes
}

/// The record in these bytes. None is number 10: they hold none that is well-formed for so many steps.
pub fn record(n: u64, from: &[u8]) -> Option<Record> {
    stored(from).filter(|stored| well_formed(n, stored)).map(|stored| Record::read(n, &stored))
}

pub fn written(record: &Record) -> [u8; 65] {
    bytes(&record.write())
}

/// Refusals 2, 10.
pub fn read(n: u64, from: &[u8]) -> Result<Stored, u64> {
    let stored = stored(from).filter(|stored| well_formed(n, stored));
    let number = lowest(&[(2, out_of_range(n)), (10, stored.is_none())]);
    stored.filter(|_| number == 0).ok_or(number)
}

/// What goes into a room of so many bytes. Refusals 2, 10, 18.
pub fn write(n: u64, stored: &Stored, room: usize) -> Result<[u8; 65], u64> {
    match lowest(&[(2, out_of_range(n)), (10, !well_formed(n, stored)), (18, room < 65)]) {
        0 => Ok(bytes(stored)),
        number => Err(number),
    }
}
