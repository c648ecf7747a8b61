use crate::refusal::refused;
use crate::{border, Entry, Graph, Lapped, Marking, Ran, Record, Refusal, RECORD_BYTES, STARVED};
use std::error::Error;
use std::fmt;

/// All entries of a journal have passed: how many there are, and the marking after them.
#[derive(Clone, Copy, PartialEq, Eq, Debug)]
pub struct Passed {
    pub entries: u64,
    pub marking: Marking,
}

/// A journal was refused. With 11 to 15 `entries` is the index of the refused entry and `marking` the one before it; with 16
/// `marking` is what was handed in; with every other number both are zeros.
#[derive(Clone, Copy, PartialEq, Eq, Debug)]
pub struct Stopped {
    pub refusal: Refusal,
    pub entries: u64,
    pub marking: Marking,
}

/// What comes of a stem and then a lap without end.
#[derive(Clone, Copy, PartialEq, Eq, Debug)]
pub enum Verdict {
    Accepted,
    /// The lowest step that is due and included all along and is never done again.
    Starved(u64),
}

/// A lap was refused; with 11 to 15 at the entry of this index, in the stem (pass 0) or in the lap (pass 1, 2, or 3 for later).
#[derive(Clone, Copy, PartialEq, Eq, Debug)]
pub struct LapRefused {
    pub refusal: Refusal,
    pub index: u64,
    pub pass: u64,
}

impl Graph {
    /// Takes the entries one after the other, until one is not allowed.
    pub fn run(&self, marking: Marking, journal: &[u8]) -> Result<Passed, Stopped> {
        passed(border::run(self, marking, journal))
    }

    /// The record of a journal. One that no marking lets pass has the record that is never.
    pub fn fold(&self, journal: &[u8]) -> Result<[u8; RECORD_BYTES], Refusal> {
        let mut record = [0; RECORD_BYTES];
        refused(border::fold(self, journal, &mut record), 0)?;
        Ok(record)
    }

    /// Applies a record to the marking, then runs the rest of the journal whose beginning it stands for.
    pub fn restore(&self, record: &[u8], rest: &[u8], marking: Marking) -> Result<Passed, Stopped> {
        passed(border::restore(self, record, rest, marking))
    }

    /// Judges a stem and a lap that is repeated for ever.
    pub fn lap(&self, marking: Marking, stem: &[u8], lap: &[u8]) -> Result<Verdict, LapRefused> {
        let Lapped { number, waiting, verdict, step, index, pass } = border::lap(self, marking, stem, lap);
        refused(number, waiting).map_err(|refusal| LapRefused { refusal, index, pass })?;
        Ok(if verdict == STARVED { Verdict::Starved(step) } else { Verdict::Accepted })
    }
}

fn passed(Ran { number, waiting, entries, marking }: Ran) -> Result<Passed, Stopped> {
    refused(number, waiting).map_err(|refusal| Stopped { refusal, entries, marking })?;
    Ok(Passed { entries, marking })
}

/// The entry of a journal at a place from 0, or none at its end and beyond.
pub fn walk(journal: &[u8], place: u64) -> Result<Option<Entry>, Refusal> {
    let walked = border::walk(journal, place);
    refused(walked.number, 0)?;
    Ok((walked.ended == 0).then_some(walked.entry))
}

/// The record of a and then b, for n steps.
pub fn join(n: u64, a: &[u8], b: &[u8]) -> Result<[u8; RECORD_BYTES], Refusal> {
    let mut record = [0; RECORD_BYTES];
    refused(border::join(n, a, b, &mut record), 0)?;
    Ok(record)
}

/// What a record makes of a marking of n steps.
pub fn apply(n: u64, record: &[u8], marking: Marking) -> Result<Marking, Refusal> {
    let moved = border::apply(n, record, marking);
    refused(moved.number, moved.waiting)?;
    Ok(moved.marking)
}

impl Record {
    /// The record in these bytes, for n steps.
    pub fn read(n: u64, bytes: &[u8]) -> Result<Record, Refusal> {
        let mut record = Record::default();
        refused(border::record_read(n, bytes, &mut record), 0)?;
        Ok(record)
    }

    /// The 65 bytes of the record, for n steps.
    pub fn write(&self, n: u64) -> Result<[u8; RECORD_BYTES], Refusal> {
        let mut bytes = [0; RECORD_BYTES];
        refused(border::record_write(n, self, &mut bytes).number, 0)?;
        Ok(bytes)
    }
}

impl fmt::Display for Stopped {
    fn fmt(&self, f: &mut fmt::Formatter<'_>) -> fmt::Result {
        match self.refusal.number() {
            11..=15 => write!(f, "{}, at entry {}", self.refusal, self.entries),
            _ => self.refusal.fmt(f),
        }
    }
}

impl fmt::Display for LapRefused {
    fn fmt(&self, f: &mut fmt::Formatter<'_>) -> fmt::Result {
        match self.refusal.number() {
            11..=15 => write!(f, "{}, at entry {} of pass {}", self.refusal, self.index, self.pass),
            _ => self.refusal.fmt(f),
        }
    }
}

impl Error for Stopped {}
impl Error for LapRefused {}
