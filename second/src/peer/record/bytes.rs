use super::stated;
use crate::data::{Record, Written};
use crate::peer::{check::first, number, Refusal};

/// Puts the record in the bytes where it is to lie.
pub fn read(n: u64, bytes: &[u8], record: &mut Record) -> u64 {
    number(stated(n).and_then(|()| parse(n, bytes)).map(|parsed| *record = parsed))
}

/// Writes the record to the beginning of the room.
pub fn write(n: u64, record: &Record, room: &mut [u8]) -> Written {
    match placed(n, record, room) {
        Ok(length) => Written { number: 0, length: length as u64 },
        Err(refusal) => Written { number: refusal.number(), length: 0 },
    }
}

#[inline]
fn placed(n: u64, record: &Record, room: &mut [u8]) -> Result<usize, Refusal> {
    stated(n)?;
    well_formed(n, record)?;
    let place = room.first_chunk_mut().ok_or(Refusal::Room)?;
    put(record, place);
    Ok(place.len())
}

/// For a number of steps that has been checked.
#[inline]
pub fn parse(n: u64, bytes: &[u8]) -> Result<Record, Refusal> {
    let Ok([never, sets @ ..]) = <&[u8; 65]>::try_from(bytes) else {
        return Err(Refusal::IllFormed);
    };
    let mut words = [u64::from(*never); 9];
    for (word, bytes) in words[1..].iter_mut().zip(sets.as_chunks().0) {
        *word = u64::from_le_bytes(*bytes);
    }
    let record = Record::new(words);
    well_formed(n, &record)?;
    Ok(record)
}

#[inline]
fn well_formed(n: u64, record: &Record) -> Result<(), Refusal> {
    let [never, sets @ ..] = record.words();
    let all = sets.iter().fold(0, |union, set| union | set);
    let clash = (record.need_in | record.need_ex) & record.need_out_or_ex
        | record.done & record.need_ex
        | record.in_set & (record.need_in | record.in_clear)
        | record.due_set & record.due_clear
        | all & !first(n);
    if clash != 0 || never > 1 || (never == 1 && all != 0) {
        return Err(Refusal::IllFormed);
    }
    Ok(())
}

/// Writes the record's bytes where they are to lie.
#[inline]
pub fn put(record: &Record, out: &mut [u8; 65]) {
    let [never, sets @ ..] = record.words();
    let [first, rest @ ..] = out;
    *first = never as u8;
    for (bytes, set) in rest.as_chunks_mut().0.iter_mut().zip(sets) {
        *bytes = set.to_le_bytes();
    }
}
