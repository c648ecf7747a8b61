use crate::steps;
use std::error::Error;
use std::fmt;

/// Why a call is not answered. Each has a number, 1 to 18, 22 or 30, and words; `ulzhartep.h` says more of each.
#[derive(Clone, Copy, PartialEq, Eq, Hash, Debug)]
pub enum Refusal {
    /// Not laid out as a sheet.
    Layout,
    /// Steps, actions or n outside 1 to 64, people or roles outside 1 to 16.
    Counts,
    /// A body of the sheet has not as many bytes as its counts ask for.
    Bodies,
    /// A set names a step or role that the counts do not have, a step has an action that they do not have, or a row beyond
    /// them is not 0.
    Beyond,
    /// An arrow of the sheet is of no kind, has no such step, or is out of order.
    Arrows,
    /// A step includes and excludes the same step.
    Both,
    /// The bytes of a journal are no multiple of 3, or too many.
    Length,
    /// A marking has a step that the graph does not have.
    Outside,
    /// A track's rank is outside 1 to steps.
    NoRank,
    /// The record is not well-formed for so many steps.
    IllFormed,
    /// The entry's person, step or role is beyond its count, or a person who is asked for without an entry.
    Unknown,
    /// The entry's person lacks the role.
    NotHeld,
    /// The action of the entry's step cannot be taken in the role.
    NotOnStep,
    /// The entry's step is not included.
    Excluded,
    /// The entry's step waits for steps that are not done: the set of all of them, see [`steps`].
    Waits(u64),
    /// The record is never, or the marking lacks what it needs.
    NotApplied,
    /// The lap has no entry.
    EmptyLap,
    /// The room is shorter than what would be written.
    Room,
    /// The bytes of a store are no whole number of markings, or place for none, or for too many.
    Store,
    /// A mast has not from 2 to 16 arms.
    Arms,
    /// A number that this crate does not know, of a later library.
    Other(u64),
}

impl Refusal {
    /// Of a number above 0 and the set that an answer's field `waiting` holds.
    pub fn new(number: u64, waiting: u64) -> Self {
        use Refusal::*;
        match number {
            1 => Layout,
            2 => Counts,
            3 => Bodies,
            4 => Beyond,
            5 => Arrows,
            6 => Both,
            7 => Length,
            8 => Outside,
            9 => NoRank,
            10 => IllFormed,
            11 => Unknown,
            12 => NotHeld,
            13 => NotOnStep,
            14 => Excluded,
            15 => Waits(waiting),
            16 => NotApplied,
            17 => EmptyLap,
            18 => Room,
            22 => Store,
            30 => Arms,
            number => Other(number),
        }
    }

    pub fn number(self) -> u64 {
        use Refusal::*;
        match self {
            Layout => 1,
            Counts => 2,
            Bodies => 3,
            Beyond => 4,
            Arrows => 5,
            Both => 6,
            Length => 7,
            Outside => 8,
            NoRank => 9,
            IllFormed => 10,
            Unknown => 11,
            NotHeld => 12,
            NotOnStep => 13,
            Excluded => 14,
            Waits(_) => 15,
            NotApplied => 16,
            EmptyLap => 17,
            Room => 18,
            Store => 22,
            Arms => 30,
            Other(number) => number,
        }
    }

    /// The words that `ulz_text` has for the number.
    pub fn text(self) -> &'static str {
        match self.number() {
            number @ 1..=18 => TEXTS[number as usize - 1],
            22 => TEXTS[18],
            30 => TEXTS[19],
            _ => "no number of this library",
        }
    }
}

/// Of 1 to 18, then of 22 and 30.
const TEXTS: [&str; 20] = [
    "not laid out as a sheet",
    "a count is out of range",
    "the bodies of the sheet do not fit its counts",
    "something is named that the counts do not have",
    "an arrow of the sheet is wrong or out of order",
    "a step includes and excludes the same step",
    "the bytes of the journal are no multiple of 3, or too many",
    "the marking has a step that the graph does not have",
    "no step has this rank",
    "the record is not well-formed",
    "no such person, step or role",
    "the person does not hold this role",
    "the step's action does not have this role",
    "the step is not included",
    "the step waits for steps that are not done",
    "the record does not apply to the marking",
    "the lap is empty",
    "there is too little room",
    "the store is no whole number of markings from 1 to 2,048",
    "the number of arms is not from 2 to 16",
];

impl fmt::Display for Refusal {
    fn fmt(&self, f: &mut fmt::Formatter<'_>) -> fmt::Result {
        write!(f, "refused: {} {}", self.number(), self.text())?;
        if let Refusal::Waits(waiting) = *self {
            write!(f, ", steps")?;
            steps(waiting).try_for_each(|step| write!(f, " {step}"))?;
        }
        Ok(())
    }
}

impl Error for Refusal {}

/// A number of 0 is an answer.
pub(crate) fn refused(number: u64, waiting: u64) -> Result<(), Refusal> {
    match number {
        0 => Ok(()),
        number => Err(Refusal::new(number, waiting)),
    }
}
